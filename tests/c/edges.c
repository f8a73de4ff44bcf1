/*
 * The edges of the interface: null with length 0 for every list, the names of the lines and of an interchange's numbers, lane
 * factors as measured and by the table, study files of both kinds, two offices' first steps in an open study, and single points:
 * every length that is not theirs, sheets of rubbish amended, and the book's typed entry by entry.
 * Prints nothing and ends with 0 where all is as the header says.
 */
#include <stdio.h>
#include <string.h>

#include "icu.h"

static int wrong = 0;

static void expect(const char *what, IcuAnswer got, uint32_t number, uint32_t place)
{
    if (got.number == number && got.place == place)
        return;
    printf("%s: %u at %u, not %u at %u\n", what, (unsigned)got.number, (unsigned)got.place, (unsigned)number,
           (unsigned)place);
    wrong = 1;
}

/* A junction whose lines are told apart: K1 of the rules. */
static void enter(uint32_t entries[ICU_ENTRIES])
{
    memset(entries, 0, ICU_ENTRIES * sizeof *entries);
    for (int m = 0; m < 12; m++) {
        entries[ICU_LANES(m)] = m % 3 != ICU_RIGHT;
        entries[ICU_VOLUME(m)] = m % 3 == ICU_LEFT ? 100 : m % 3 == ICU_THROUGH ? 400 : 0;
        entries[ICU_IDEAL_FLOW(m)] = 1900;
        entries[ICU_LOST_TIME(m)] = entries[ICU_MINIMUM_GREEN(m)] = 4000;
    }
    for (int a = ICU_EB; a <= ICU_SB; a++)
        entries[ICU_PEDESTRIAN_TIME(a)] = 16000;
    entries[ICU_CYCLE] = 120;
}

static void expect_cell(const char *what, uint32_t got, uint32_t due)
{
    if (got == due)
        return;
    printf("%s: %u, not %u\n", what, (unsigned)got, (unsigned)due);
    wrong = 1;
}

/* What a list is given to hold so that a write into it shows. */
#define RUBBISH UINT32_C(0x07070707)

static void put_rubbish(uint32_t *list, size_t from, size_t to)
{
    for (size_t i = from; i < to; i++)
        list[i] = RUBBISH;
}

static void expect_rubbish(const char *what, const uint32_t *list, size_t len)
{
    for (size_t i = 0; i < len; i++)
        expect_cell(what, list[i], RUBBISH);
}

/* Two such junctions with one movement apart, storages and a travel time. */
static void enter_record(uint32_t record[ICU_RECORD])
{
    enter(record + ICU_WEST(0));
    enter(record + ICU_EAST(0));
    record[ICU_EAST(ICU_VOLUME(ICU_MOVEMENT(ICU_EB, ICU_LEFT)))] = 200;
    for (int storage = ICU_STORAGE_WB_LEFT; storage <= ICU_STORAGE_WESTBOUND; storage++)
        record[storage] = 20;
    record[ICU_TRAVEL_TIME] = 7100;
}

static void diamond_sizes(const uint32_t record[ICU_RECORD + 1], uint32_t cells[ICU_DIAMOND_CELLS + 1])
{
    expect("diamond, nothing lent", icu_diamond(NULL, 0, NULL, 0), ICU_SIZE, 0);
    expect("diamond, no cells", icu_diamond(record, ICU_RECORD, NULL, 0), ICU_SIZE, 0);
    expect("diamond, no record", icu_diamond(NULL, 0, cells, ICU_DIAMOND_CELLS), ICU_SIZE, 0);
    for (int by = -1; by <= 1; by += 2) {
        expect("diamond, record's length", icu_diamond(record, ICU_RECORD + by, cells, ICU_DIAMOND_CELLS), ICU_SIZE, 0);
        expect("diamond, cells' length", icu_diamond(record, ICU_RECORD, cells, ICU_DIAMOND_CELLS + by), ICU_SIZE, 0);
    }
}

/* A record with another number at one place: refused, and no cell altered. */
static void refused_at(uint32_t record[ICU_RECORD], int place, uint32_t number, IcuAnswer due)
{
    uint32_t cells[ICU_DIAMOND_CELLS], kept = record[place];
    put_rubbish(cells, 0, ICU_DIAMOND_CELLS);
    record[place] = number;
    expect("diamond, refused", icu_diamond(record, ICU_RECORD, cells, ICU_DIAMOND_CELLS), due.number, due.place);
    record[place] = kept;
    expect_rubbish("cell after a refusal", cells, ICU_DIAMOND_CELLS);
}

static void diamond_refusals(uint32_t record[ICU_RECORD])
{
    refused_at(record, ICU_WEST(ICU_CYCLE), 29, (IcuAnswer){ICU_RANGE, 92});
    refused_at(record, ICU_EAST(ICU_LANE_FACTOR(0)), 499, (IcuAnswer){ICU_RANGE, 98});
    refused_at(record, ICU_EAST(ICU_CYCLE), 121, (IcuAnswer){ICU_RANGE, 185});
    refused_at(record, ICU_EAST(ICU_SHARED_LANE(ICU_NB)), 1, (IcuAnswer){ICU_SHARED, 6});
    refused_at(record, ICU_EAST(ICU_LANES(ICU_MOVEMENT(ICU_SB, ICU_THROUGH))), 0, (IcuAnswer){ICU_NOLANE, 22});
    refused_at(record, ICU_STORAGE_EB_LEFT, 1000, (IcuAnswer){ICU_STORE, 187});
    refused_at(record, ICU_STORAGE_WESTBOUND, 0, (IcuAnswer){ICU_STORE, 189});
    refused_at(record, ICU_TRAVEL_TIME, 60001, (IcuAnswer){ICU_TRAVEL, 190});
}

static void diamond_cells(uint32_t record[ICU_RECORD], uint32_t cells[ICU_DIAMOND_CELLS])
{
    expect("diamond", icu_diamond(record, ICU_RECORD, cells, ICU_DIAMOND_CELLS), ICU_ACCEPTED, 0);
    expect_cell("west WBL", cells[ICU_WEST_WBL], 10649);
    expect_cell("east EBL", cells[ICU_EAST_EBL], 17297);
    expect_cell("east NBT", cells[ICU_EAST_NBT], 29264);
    expect_cell("isolated, west", cells[ICU_ISOLATED(ICU_WEST_SIDE)], 69177);
    expect_cell("alternate, east", cells[ICU_ISOLATED_ALTERNATE(ICU_EAST_SIDE)], 58528);
    expect_cell("combined, east", cells[ICU_ISOLATED_COMBINED(ICU_EAST_SIDE)], 75825);
    expect_cell("overlap", cells[ICU_OVERLAP(ICU_WEST_SIDE)], 7100);
    expect_cell("leading alternate", cells[ICU_PLAN(ICU_LEADING_ALTERNATE)], 102856);
    expect_cell("picked", cells[ICU_PLAN_PICKED], ICU_LAGGING);
    expect_cell("best", cells[ICU_BEST], cells[ICU_PLAN(ICU_LAGGING)]);
    expect_cell("ICU", cells[ICU_DIAMOND_ICU], 632);
    expect_cell("letter", cells[ICU_DIAMOND_LETTER], 1);
    record[ICU_STORAGE_WB_LEFT] = 5;
    expect("diamond, a storage of 5", icu_diamond(record, ICU_RECORD, cells, ICU_DIAMOND_CELLS), ICU_ACCEPTED, 0);
    expect_cell("lagging, not allowed", cells[ICU_PLAN(ICU_LAGGING)], ICU_BLANK);
    expect_cell("picked without it", cells[ICU_PLAN_PICKED], ICU_LEAD_LAG);
}

static void diamond(void)
{
    uint32_t record[ICU_RECORD + 1] = {0}, cells[ICU_DIAMOND_CELLS + 1];

    enter_record(record);
    diamond_sizes(record, cells);
    diamond_refusals(record);
    diamond_cells(record, cells);
}

enum { CITY = 1, COUNTY = 2 };

/* An open study, beside what a call writes of it; one number more than is lent, to lend that too. */
typedef struct Open {
    uint32_t owners[ICU_PLACES + 1], blocks[ICU_BLOCKS + 1], entries[ICU_ENTRIES + 1], sheet[ICU_CELLS + 1], place;
} Open;

static IcuAnswer add(Open *o, uint32_t office)
{
    return icu_open_add(o->owners, ICU_PLACES, o->blocks, ICU_BLOCKS, office, o->entries, ICU_ENTRIES, &o->place);
}

static IcuAnswer amend(Open *o, uint32_t office, uint32_t site, uint32_t entry, uint32_t value)
{
    return icu_open_amend(o->owners, ICU_PLACES, o->blocks, ICU_BLOCKS, office, site, entry, value);
}

static IcuAnswer read_site(Open *o, uint32_t office, uint32_t site)
{
    return icu_open_read(o->owners, ICU_PLACES, o->blocks, ICU_BLOCKS, office, site, o->sheet, ICU_CELLS);
}

/* Each call that these lengths do not fit. */
static void wrong_sizes(const char *what, Open *o, size_t owners, size_t blocks, size_t entries, size_t sheet)
{
    uint32_t *owned = owners ? o->owners : NULL, *held = blocks ? o->blocks : NULL, *cells = sheet ? o->sheet : NULL;
    const uint32_t *list = entries ? o->entries : NULL;

    expect(what, icu_open_add(owned, owners, held, blocks, CITY, list, entries, &o->place), ICU_SIZE, 0);
    expect(what, icu_open_read(owned, owners, held, blocks, CITY, 0, cells, sheet), ICU_SIZE, 0);
    if (owners != ICU_PLACES || blocks != ICU_BLOCKS)
        expect(what, icu_open_amend(owned, owners, held, blocks, CITY, 0, 0, 0), ICU_SIZE, 0);
}

static void open_sizes(Open *o)
{
    wrong_sizes("open, nothing lent", o, 0, 0, 0, 0);
    wrong_sizes("open, no owners", o, 0, ICU_BLOCKS, ICU_ENTRIES, ICU_CELLS);
    wrong_sizes("open, no blocks", o, ICU_PLACES, 0, ICU_ENTRIES, ICU_CELLS);
    wrong_sizes("open, no entries and no sheet", o, ICU_PLACES, ICU_BLOCKS, 0, 0);
    for (int by = -1; by <= 1; by += 2) {
        wrong_sizes("open, owners' length", o, ICU_PLACES + by, ICU_BLOCKS, ICU_ENTRIES, ICU_CELLS);
        wrong_sizes("open, blocks' length", o, ICU_PLACES, ICU_BLOCKS + by, ICU_ENTRIES, ICU_CELLS);
        wrong_sizes("open, entries' and sheet's length", o, ICU_PLACES, ICU_BLOCKS, ICU_ENTRIES + by, ICU_CELLS + by);
    }
}

/* The city's site at place 0, the county's at 1: each amends and reads its own, and no other. */
static void two_offices(Open *o)
{
    const uint32_t lefts = ICU_VOLUME(ICU_MOVEMENT(ICU_EB, ICU_LEFT));

    expect("city adds", add(o, CITY), ICU_ACCEPTED, 0);
    expect_cell("city's place", o->place, 0);
    o->entries[lefts] = 200;
    expect("county adds", add(o, COUNTY), ICU_ACCEPTED, 0);
    expect_cell("county's place", o->place, 1);
    expect_cell("city's owner", o->owners[0], CITY);
    expect_cell("county's owner", o->owners[1], COUNTY);
    expect_cell("county's lefts", o->blocks[ICU_ENTRIES + lefts], 200);
    expect("city amends", amend(o, CITY, 0, lefts, 300), ICU_ACCEPTED, 0);
    expect_cell("city's lefts", o->blocks[lefts], 300);
    expect("county amends the city's", amend(o, COUNTY, 0, lefts, 9), ICU_OWNER, 0);
    expect("city reads the county's", read_site(o, CITY, 1), ICU_OWNER, 1);
    expect("county reads", read_site(o, COUNTY, 1), ICU_ACCEPTED, 0);
    expect_cell("county's adjusted left", o->sheet[ICU_LINE(ICU_EB, ICU_LEFT_ADJUSTED)], 17297);
    expect("city reads", read_site(o, CITY, 0), ICU_ACCEPTED, 0);
    expect_cell("city's lefts, read", o->sheet[ICU_LINE(ICU_EB, ICU_LEFT_VOLUME)], 300);
}

/* What is refused of the study that the two have made, one refusal before the other. */
static void open_refusals(Open *o)
{
    const uint32_t cycle = ICU_CYCLE;

    o->place = 7;
    expect("add, no office", add(o, 0), ICU_OWNER, 0);
    expect("amend, entry 93 of another's", amend(o, COUNTY, 0, ICU_ENTRIES, 0), ICU_ENTRY, 0);
    expect("amend, a free place", amend(o, CITY, 2, cycle, 29), ICU_OWNER, 2);
    expect("amend, no office", amend(o, 0, 2, cycle, 120), ICU_OWNER, 2);
    expect("amend, no such place", amend(o, CITY, ICU_PLACES, cycle, 120), ICU_OWNER, ICU_PLACES);
    expect("read, no such place", read_site(o, CITY, UINT32_MAX), ICU_OWNER, UINT32_MAX);
    expect("amend, range", amend(o, COUNTY, 1, cycle, 29), ICU_RANGE, ICU_CYCLE);
    expect("amend, a lane factor", amend(o, COUNTY, 1, ICU_LANE_FACTOR(7), 1001), ICU_RANGE, ICU_LANE_FACTOR(7));
    expect("amend, shared", amend(o, COUNTY, 1, ICU_SHARED_LANE(ICU_NB), 1), ICU_SHARED, ICU_NB);
    expect("amend, no lane", amend(o, COUNTY, 1, ICU_LANES(4), 0), ICU_NOLANE, 4);
    o->blocks[ICU_ENTRIES + ICU_CYCLE] = 29;
    o->sheet[ICU_ICU] = 7;
    expect("read, a bad block", read_site(o, COUNTY, 1), ICU_RANGE, ICU_CYCLE);
    expect_cell("sheet after a refusal", o->sheet[ICU_ICU], 7);
    for (int at = 2; at < ICU_PLACES; at++)
        o->owners[at] = UINT32_MAX;
    expect("add, full", add(o, CITY), ICU_FULL, 0);
    o->entries[ICU_CYCLE] = 29;
    expect("add, full and a bad entry", add(o, CITY), ICU_RANGE, ICU_CYCLE);
    expect_cell("place after refusals", o->place, 7);
}

static void open_study(void)
{
    static Open study;

    enter(study.entries);
    open_sizes(&study);
    two_offices(&study);
    open_refusals(&study);
}

/* The left lane of K1's sheet, by the table and as measured; in the end the sheet is again what it was. */
static void lane_factors(uint32_t sheet[ICU_CELLS])
{
    static const uint32_t bad[] = {1, 499, 1001, UINT32_MAX};
    const uint32_t factor = ICU_LANE_FACTOR(ICU_MOVEMENT(ICU_EB, ICU_LEFT)), flow = ICU_LINE(ICU_EB, ICU_LEFT_FLOW);
    uint32_t filled[ICU_CELLS];

    memcpy(filled, sheet, sizeof filled);
    expect_cell("left flow, the table's", sheet[flow], 18050);
    expect("amend, measured", icu_amend(sheet, ICU_CELLS, factor, 900), ICU_ACCEPTED, 0);
    expect_cell("left flow, measured", sheet[flow], 16245);
    expect_cell("left lane flow, measured", sheet[ICU_LINE(ICU_EB, ICU_LEFT_LANE_FLOW)], 16245);
    for (size_t i = 0; i < sizeof bad / sizeof *bad; i++)
        expect("amend, no lane factor", icu_amend(sheet, ICU_CELLS, factor, bad[i]), ICU_RANGE, factor);
    expect_cell("left flow after refusals", sheet[flow], 16245);
    expect("amend, half", icu_amend(sheet, ICU_CELLS, factor, 500), ICU_ACCEPTED, 0);
    expect_cell("left flow, half", sheet[flow], 9025);
    expect("amend, whole", icu_amend(sheet, ICU_CELLS, factor, 1000), ICU_ACCEPTED, 0);
    expect_cell("left flow, whole", sheet[flow], 18050);
    expect("amend, by the table", icu_amend(sheet, ICU_CELLS, factor, ICU_TABLE_FACTOR), ICU_ACCEPTED, 0);
    expect_cell("sheet as it was", memcmp(sheet, filled, sizeof filled) == 0, 1);
    expect("amend, entry 93", icu_amend(sheet, ICU_CELLS, ICU_ENTRIES, 0), ICU_ENTRY, 0);
}

/* Two through lanes, one shared with the lefts: each line takes its own movement's factor, line 9 the left's. */
static void shared_factors(uint32_t entries[ICU_ENTRIES], uint32_t sheet[ICU_CELLS])
{
    enter(entries);
    entries[ICU_LANES(ICU_LEFT)] = 0;
    entries[ICU_LANES(ICU_THROUGH)] = 2;
    entries[ICU_SHARED_LANE(ICU_EB)] = 1;
    entries[ICU_LANE_FACTOR(ICU_LEFT)] = 800;
    entries[ICU_LANE_FACTOR(ICU_THROUGH)] = 900;
    expect("fill, shared", icu_fill(entries, ICU_ENTRIES, sheet, ICU_CELLS), ICU_ACCEPTED, 0);
    expect_cell("left flow, no lane", sheet[ICU_LINE(ICU_EB, ICU_LEFT_FLOW)], 0);
    expect_cell("straight flow", sheet[ICU_LINE(ICU_EB, ICU_STRAIGHT_FLOW)], 34200);
    expect_cell("left lane flow, shared", sheet[ICU_LINE(ICU_EB, ICU_LEFT_LANE_FLOW)], 14440);
}

static void put(uint8_t *file, size_t field, uint32_t number)
{
    for (size_t byte = 0; byte < 4; byte++)
        file[4 * field + byte] = (uint8_t)(number >> 8 * byte);
}

/* A study file of before of one site: its entries but the lane factors. */
static void lay_out_before(const uint32_t entries[ICU_ENTRIES], uint8_t file[ICU_FILE_BYTES_BEFORE(1)])
{
    size_t field = 3;

    memcpy(file, "ICUS", 4);
    put(file, 1, 1);
    put(file, 2, 12);
    for (uint32_t i = 0; i < ICU_ENTRIES; i++)
        if (i >= ICU_SHARED_LANE(ICU_EB) || i % 6 != ICU_LANE_FACTOR(0))
            put(file, field++, entries[i]);
    expect_cell("bytes of a file of before", (uint32_t)(4 * field), ICU_FILE_BYTES_BEFORE(1));
}

static void expect_list(const uint8_t *file, size_t len, const char *due)
{
    uint8_t out[ICU_LIST_BYTES + 1];
    uint32_t length = 0;

    expect("list", icu_study_list(file, len, out, ICU_LIST_BYTES, &length), ICU_ACCEPTED, 0);
    out[length] = 0;
    if (strcmp((const char *)out, due) == 0)
        return;
    printf("list: %s, not %s\n", (const char *)out, due);
    wrong = 1;
}

/* What a study of before gives: the same site with all lane factors 0, places as of today. */
static void study_before(uint32_t entries[ICU_ENTRIES])
{
    uint8_t file[ICU_FILE_BYTES_BEFORE(1)];
    uint32_t read[ICU_ENTRIES];

    enter(entries);
    entries[ICU_LANE_FACTOR(11)] = 900;
    lay_out_before(entries, file);
    entries[ICU_LANE_FACTOR(11)] = ICU_TABLE_FACTOR;
    expect("check, of before", icu_study_check(file, sizeof file), ICU_ACCEPTED, 0);
    expect_cell("count, of before", icu_study_count(file, sizeof file), 1);
    memset(read, 7, sizeof read);
    expect("site, 81 entries", icu_study_site(file, sizeof file, 0, read, 81), ICU_SIZE, 0);
    expect("site, of before", icu_study_site(file, sizeof file, 0, read, ICU_ENTRIES), ICU_ACCEPTED, 0);
    expect_cell("its entries", memcmp(read, entries, sizeof read) == 0, 1);
    expect_list(file, sizeof file, "1 666 C PP\n");
    entries[ICU_CYCLE] = 29;
    lay_out_before(entries, file);
    expect_list(file, sizeof file, "1 R3 92\n");
    memcpy(file, "ICUT", 4);
    expect("check, of before under the new name", icu_study_check(file, sizeof file), ICU_FILE, sizeof file);
    memcpy(file, "ICUU", 4);
    expect("check, any other name", icu_study_check(file, sizeof file), ICU_FILE, 0);
}

/* As many sites as a study may have, in exactly the room they take. */
static void study_written(void)
{
    static uint32_t all[(ICU_SITES + 1) * ICU_ENTRIES];
    static uint8_t file[ICU_MOST_FILE_BYTES + 1];
    const size_t most = ICU_SITES * ICU_ENTRIES;
    uint32_t read[ICU_ENTRIES];

    for (size_t site = 0; site <= ICU_SITES; site++)
        enter(all + site * ICU_ENTRIES);
    all[most - ICU_ENTRIES + ICU_LANE_FACTOR(ICU_LEFT)] = 900;
    expect_cell("bytes of most sites", ICU_FILE_BYTES(ICU_SITES), ICU_MOST_FILE_BYTES);
    expect("write, 166 sites", icu_study_write(all, most + ICU_ENTRIES, file, sizeof file), ICU_FILE, 0);
    expect("write, blocks of 81", icu_study_write(all, 81, file, sizeof file), ICU_SIZE, 0);
    expect("write, a byte short", icu_study_write(all, most, file, ICU_MOST_FILE_BYTES - 1), ICU_FILE, 4);
    expect_cell("nothing written", file[0], 0);
    expect("write", icu_study_write(all, most, file, ICU_MOST_FILE_BYTES), ICU_ACCEPTED, 0);
    expect_cell("opening", memcmp(file, "ICUT", 4) == 0, 1);
    expect_cell("byte after it", file[ICU_MOST_FILE_BYTES], 0);
    expect("check", icu_study_check(file, ICU_MOST_FILE_BYTES), ICU_ACCEPTED, 0);
    expect_cell("count", icu_study_count(file, ICU_MOST_FILE_BYTES), ICU_SITES);
    expect("site, the last", icu_study_site(file, ICU_MOST_FILE_BYTES, ICU_SITES - 1, read, ICU_ENTRIES), ICU_ACCEPTED, 0);
    expect_cell("its entries", memcmp(read, all + most - ICU_ENTRIES, sizeof read) == 0, 1);
    expect("site, none", icu_study_site(file, ICU_MOST_FILE_BYTES, ICU_SITES, read, ICU_ENTRIES), ICU_FILE, 4);
    put(file, 1, ICU_SITES + 1);
    expect("check, 166 sites", icu_study_check(file, ICU_MOST_FILE_BYTES), ICU_FILE, 4);
}

/* An amendment that types a number. */
typedef struct Typed {
    uint32_t entry, value;
} Typed;

enum { TYPED = 12 * 3 + 4 * 4 };

/* The book's fourth example, to be typed over the starting entries: lanes come before the volumes that use them. */
static void type_book(Typed typed[TYPED])
{
    static const uint32_t lanes[12] = {2, 3, 1, 2, 3, 1, 2, 0, 1, 2, 0, 2};
    static const uint32_t volumes[12] = {500, 2200, 300, 700, 1500, 800, 800, 0, 200, 900, 0, 800};
    static const uint32_t walkers[4] = {12, 0, 0, 0}, buttons[4] = {1, 1, 0, 0}, frees[4] = {1, 0, 0, 1};
    static const uint32_t times[4] = {24000, 24000, 20000, 20000};

    for (int m = 0; m < 12; m++) {
        *typed++ = (Typed){ICU_LANES(m), lanes[m]};
        *typed++ = (Typed){ICU_VOLUME(m), volumes[m]};
        *typed++ = (Typed){ICU_MINIMUM_GREEN(m), 8000};
    }
    for (int a = ICU_EB; a <= ICU_SB; a++) {
        *typed++ = (Typed){ICU_PEDESTRIANS(a), walkers[a]};
        *typed++ = (Typed){ICU_PUSH_BUTTON(a), buttons[a]};
        *typed++ = (Typed){ICU_PEDESTRIAN_TIME(a), times[a]};
        *typed++ = (Typed){ICU_FREE_RIGHT(a), frees[a]};
    }
}

static void enter_book(uint32_t entries[ICU_ENTRIES])
{
    Typed typed[TYPED];

    type_book(typed);
    expect("point start", icu_point_start(entries, ICU_ENTRIES), ICU_ACCEPTED, 0);
    for (int i = 0; i < TYPED; i++)
        entries[typed[i].entry] = typed[i].value;
}

static IcuAnswer point_fill(const uint32_t entries[ICU_ENTRIES], uint32_t sheet[ICU_POINT_CELLS])
{
    return icu_point_fill(entries, ICU_ENTRIES, sheet, ICU_POINT_CELLS);
}

static IcuAnswer point_amend(uint32_t sheet[ICU_POINT_CELLS], uint32_t entry, uint32_t value)
{
    return icu_point_amend(sheet, ICU_POINT_CELLS, entry, value);
}

/* The list, or null where nothing of it is lent. */
static uint32_t *lent(uint32_t *list, size_t len)
{
    return len ? list : NULL;
}

/* Lengths on both sides of the right ones, none, and a junction's: nothing is written, whatever else is wrong. */
static void point_sizes(void)
{
    static const size_t lists[] = {0, 92, 94, ICU_POINT_CELLS}, sheets[] = {0, ICU_ENTRIES, 174, 176, ICU_CELLS};
    uint32_t entries[ICU_ENTRIES], list[ICU_POINT_CELLS], sheet[ICU_CELLS];

    enter_book(entries);
    put_rubbish(list, 0, ICU_POINT_CELLS);
    put_rubbish(sheet, 0, ICU_CELLS);
    expect("point fill, nothing lent", icu_point_fill(NULL, 0, NULL, 0), ICU_SIZE, 0);
    for (size_t i = 0; i < sizeof lists / sizeof *lists; i++) {
        uint32_t *some = lent(list, lists[i]);
        expect("point start, length", icu_point_start(some, lists[i]), ICU_SIZE, 0);
        expect("point fill, entries' length", icu_point_fill(some, lists[i], sheet, ICU_POINT_CELLS), ICU_SIZE, 0);
    }
    for (size_t i = 0; i < sizeof sheets / sizeof *sheets; i++) {
        uint32_t *some = lent(sheet, sheets[i]);
        expect("point fill, sheet's length", icu_point_fill(entries, ICU_ENTRIES, some, sheets[i]), ICU_SIZE, 0);
        expect("point amend, length", icu_point_amend(some, sheets[i], ICU_ENTRIES, 0), ICU_SIZE, 0);
    }
    expect_rubbish("list after refusals", list, ICU_POINT_CELLS);
    expect_rubbish("sheet after refusals", sheet, ICU_CELLS);
    expect("fill of a single point's sheet", icu_fill(entries, ICU_ENTRIES, sheet, ICU_POINT_CELLS), ICU_SIZE, 0);
    expect("amend of a single point's sheet", icu_amend(sheet, ICU_POINT_CELLS, 0, 0), ICU_SIZE, 0);
}

static uint32_t starting_value(uint32_t entry)
{
    uint32_t movement = entry / 6, kind = entry % 6;

    if (entry >= ICU_SHARED_LANE(ICU_EB))
        return entry == ICU_CYCLE ? 120 : 0;
    if (kind == ICU_LOST_TIME(0))
        return movement % 3 == ICU_LEFT ? 8000 : 6000;
    return kind == ICU_IDEAL_FLOW(0) ? 2000 : 0;
}

/* All 93 entries are written and nothing past them; of their sheet only the turning factors, of no turns, are not 0. */
static void point_start(void)
{
    uint32_t entries[ICU_ENTRIES + 1], sheet[ICU_POINT_CELLS];

    put_rubbish(entries, 0, ICU_ENTRIES + 1);
    expect("point start", icu_point_start(entries, ICU_ENTRIES), ICU_ACCEPTED, 0);
    expect_cell("number past the entries", entries[ICU_ENTRIES], RUBBISH);
    expect("point fill of the start", point_fill(entries, sheet), ICU_ACCEPTED, 0);
    for (uint32_t i = 0; i < ICU_ENTRIES; i++) {
        expect_cell("starting entry", entries[i], starting_value(i));
        expect_cell("starting entry on the sheet", sheet[i], starting_value(i));
    }
    for (int a = ICU_EB; a <= ICU_SB; a++) {
        expect_cell("turning factor", sheet[ICU_POINT_LINE(a, ICU_TURNING_FACTOR)], 10000);
        sheet[ICU_POINT_LINE(a, ICU_TURNING_FACTOR)] = 0;
    }
    for (int i = ICU_ENTRIES; i < ICU_POINT_CELLS; i++)
        expect_cell("cell of the start", sheet[i], 0);
}

static void point_cells(void)
{
    uint32_t entries[ICU_ENTRIES], sheet[ICU_POINT_CELLS + 1];

    enter_book(entries);
    put_rubbish(sheet, 0, ICU_POINT_CELLS + 1);
    expect("point fill", point_fill(entries, sheet), ICU_ACCEPTED, 0);
    expect_cell("entries on the sheet", memcmp(sheet, entries, sizeof entries) == 0, 1);
    expect_cell("left volume", sheet[ICU_POINT_LINE(ICU_EB, ICU_LEFT_VOLUME)], 500);
    expect_cell("straight flow", sheet[ICU_POINT_LINE(ICU_WB, ICU_STRAIGHT_FLOW)], 54480);
    expect_cell("pedestrian frequency", sheet[ICU_POINT_LINE(ICU_EB, ICU_PEDESTRIAN_FREQUENCY)], 3297);
    expect_cell("adjusted right", sheet[ICU_POINT_LINE(ICU_SB, ICU_RIGHT_ADJUSTED)], 37905);
    expect_cell("EB-WB", sheet[ICU_POINT_EB_WB], 85225);
    expect_cell("NB-SB", sheet[ICU_POINT_NB_SB], 37270);
    expect_cell("right total, free", sheet[ICU_POINT_RIGHT_TOTAL(ICU_EB)], 28646);
    expect_cell("right total, waiting", sheet[ICU_POINT_RIGHT_TOTAL(ICU_NB)], 111847);
    expect_cell("combined", sheet[ICU_POINT_COMBINED], 122495);
    expect_cell("required", sheet[ICU_POINT_REQUIRED], 122495);
    expect_cell("ICU", sheet[ICU_POINT_ICU], 1021);
    expect_cell("letter", sheet[ICU_POINT_LETTER], 6);
    expect_cell("number past the sheet", sheet[ICU_POINT_CELLS], RUBBISH);
}

/* The book's entries with another value of one: refused alike as entries and as an amendment, and no cell altered. */
static void point_refused(uint32_t entry, uint32_t value, IcuAnswer due)
{
    uint32_t entries[ICU_ENTRIES], sheet[ICU_POINT_CELLS], filled[ICU_POINT_CELLS];

    enter_book(entries);
    expect("point fill", point_fill(entries, filled), ICU_ACCEPTED, 0);
    memcpy(sheet, filled, sizeof sheet);
    expect("point amend, refused", point_amend(sheet, entry, value), due.number, due.place);
    expect_cell("sheet after a refusal", memcmp(sheet, filled, sizeof sheet) == 0, 1);
    entries[entry] = value;
    put_rubbish(sheet, 0, ICU_POINT_CELLS);
    expect("point fill, refused", point_fill(entries, sheet), due.number, due.place);
    expect_rubbish("cell after a refusal", sheet, ICU_POINT_CELLS);
}

static void point_refusals(void)
{
    uint32_t sheet[ICU_POINT_CELLS];

    point_refused(ICU_CYCLE, 241, (IcuAnswer){ICU_RANGE, ICU_CYCLE});
    point_refused(ICU_LANE_FACTOR(0), 499, (IcuAnswer){ICU_RANGE, ICU_LANE_FACTOR(0)});
    point_refused(ICU_SHARED_LANE(ICU_EB), 2, (IcuAnswer){ICU_RANGE, ICU_SHARED_LANE(ICU_EB)});
    point_refused(ICU_SHARED_LANE(ICU_SB), 1, (IcuAnswer){ICU_SHARED, ICU_SB});
    point_refused(ICU_LANES(ICU_MOVEMENT(ICU_WB, ICU_THROUGH)), 0, (IcuAnswer){ICU_NOLANE, 4});
    point_refused(ICU_VOLUME(ICU_MOVEMENT(ICU_NB, ICU_THROUGH)), 1, (IcuAnswer){ICU_NOLANE, 7});
    /* with not one good entry */
    put_rubbish(sheet, 0, ICU_POINT_CELLS);
    expect("point amend, entry 93", point_amend(sheet, ICU_ENTRIES, 0), ICU_ENTRY, 0);
    expect("point amend, no such entry", point_amend(sheet, UINT32_MAX, 0), ICU_ENTRY, 0);
    expect("point amend, rubbish", point_amend(sheet, ICU_CYCLE, 120), ICU_RANGE, 0);
    expect("point amend, the lowest put right", point_amend(sheet, 0, 1), ICU_RANGE, 1);
    expect_rubbish("sheet after refusals", sheet, ICU_POINT_CELLS);
}

/* Lanes that a junction may share: a single point may not, until the last of them is its own. */
static void point_shared(void)
{
    uint32_t entries[ICU_ENTRIES], whole[ICU_CELLS], sheet[ICU_POINT_CELLS], fresh[ICU_POINT_CELLS];

    enter(entries);
    entries[ICU_LANES(ICU_MOVEMENT(ICU_WB, ICU_LEFT))] = entries[ICU_LANES(ICU_MOVEMENT(ICU_SB, ICU_LEFT))] = 0;
    entries[ICU_VOLUME(ICU_MOVEMENT(ICU_SB, ICU_LEFT))] = 0;
    entries[ICU_SHARED_LANE(ICU_WB)] = entries[ICU_SHARED_LANE(ICU_SB)] = 1;
    expect("fill, shared", icu_fill(entries, ICU_ENTRIES, whole, ICU_CELLS), ICU_ACCEPTED, 0);
    expect("point fill, shared", point_fill(entries, sheet), ICU_SHARED, ICU_WB);
    entries[ICU_SHARED_LANE(ICU_WB)] = 0;
    expect("point fill, shared before no lane", point_fill(entries, sheet), ICU_SHARED, ICU_SB);
    entries[ICU_LANES(ICU_MOVEMENT(ICU_WB, ICU_LEFT))] = 1;
    memcpy(sheet, entries, sizeof entries);
    expect("point amend, shared as before", point_amend(sheet, ICU_CYCLE, 90), ICU_SHARED, ICU_SB);
    expect("point amend, no longer shared", point_amend(sheet, ICU_SHARED_LANE(ICU_SB), 0), ICU_ACCEPTED, 0);
    entries[ICU_SHARED_LANE(ICU_SB)] = 0;
    expect("point fill, no longer shared", point_fill(entries, fresh), ICU_ACCEPTED, 0);
    expect("point amend, the cycle", point_amend(sheet, ICU_CYCLE, 120), ICU_ACCEPTED, 0);
    expect_cell("every cell as filled", memcmp(sheet, fresh, sizeof sheet) == 0, 1);
}

/* A set of an approach's lines, bit k - 1 for line k. */
#define LINES(first, last) ((UINT32_C(1) << (last)) - (UINT32_C(1) << ((first) - 1)))

/* The own lines that an amendment of NB's entry reaches. */
static uint32_t reached_lines(uint32_t entry)
{
    switch (entry) {
    case ICU_PEDESTRIANS(ICU_NB):
        return LINES(10, 12) | LINES(14, 15) | LINES(17, 18);
    case ICU_PUSH_BUTTON(ICU_NB):
        return LINES(12, 12) | LINES(17, 17);
    case ICU_PEDESTRIAN_TIME(ICU_NB):
        return LINES(17, 17);
    case ICU_FREE_RIGHT(ICU_NB):
        return 0;
    case ICU_SHARED_LANE(ICU_NB):
        return LINES(1, 18);
    }
    return entry % 6 == ICU_LOST_TIME(0) || entry % 6 == ICU_MINIMUM_GREEN(0) ? LINES(16, 18) : LINES(1, 18);
}

/* Whether an amendment of an entry of NB or of the cycle reaches a cell. */
static int reaches(uint32_t entry, uint32_t cell)
{
    uint32_t first = ICU_POINT_LINE(ICU_NB, 1);

    if (cell == entry || cell >= ICU_POINT_RIGHT_TOTAL(ICU_EB))
        return 1;
    if (cell < ICU_ENTRIES || entry == ICU_CYCLE)
        return cell >= ICU_ENTRIES;
    if (cell >= ICU_POINT_EB_WB)
        return cell == ICU_POINT_NB_SB && entry != ICU_FREE_RIGHT(ICU_NB);
    return cell >= first && cell < first + 18 && reached_lines(entry) >> (cell - first) & 1;
}

/* The book's entries before rubbish: the reached cells are those of a fresh fill, the others stay. */
static void point_reached(uint32_t entry, uint32_t value)
{
    uint32_t entries[ICU_ENTRIES], sheet[ICU_POINT_CELLS], fresh[ICU_POINT_CELLS];

    enter_book(entries);
    memcpy(sheet, entries, sizeof entries);
    put_rubbish(sheet, ICU_ENTRIES, ICU_POINT_CELLS);
    expect("point amend of rubbish", point_amend(sheet, entry, value), ICU_ACCEPTED, 0);
    entries[entry] = value;
    expect("point fill, amended", point_fill(entries, fresh), ICU_ACCEPTED, 0);
    for (uint32_t cell = 0; cell < ICU_POINT_CELLS; cell++) {
        uint32_t stood = cell < ICU_ENTRIES ? entries[cell] : RUBBISH;
        expect_cell("cell after an amendment", sheet[cell], reaches(entry, cell) ? fresh[cell] : stood);
    }
}

/* Every kind of entry, of NB, and the cycle. */
static void point_amendments(void)
{
    static const uint32_t values[6] = {3, 150, 1900, 7000, 9000, 900}, own[5] = {0, 60, 1, 30000, 1};
    const uint32_t movement = ICU_LANES(ICU_MOVEMENT(ICU_NB, ICU_RIGHT)), approach = ICU_SHARED_LANE(ICU_NB);

    for (uint32_t kind = 0; kind < 6; kind++)
        point_reached(movement + kind, values[kind]);
    for (uint32_t kind = 0; kind < 5; kind++)
        point_reached(approach + kind, own[kind]);
    point_reached(ICU_CYCLE, 90);
}

/* The book's entries typed one by one; what is refused between them leaves the sheet, and each is as filled afresh. */
static void point_run(void)
{
    Typed typed[TYPED];
    uint32_t entries[ICU_ENTRIES], sheet[ICU_POINT_CELLS], fresh[ICU_POINT_CELLS];

    type_book(typed);
    expect("point start", icu_point_start(entries, ICU_ENTRIES), ICU_ACCEPTED, 0);
    expect("point fill of the start", point_fill(entries, sheet), ICU_ACCEPTED, 0);
    expect("volume before its lane", point_amend(sheet, ICU_VOLUME(0), 500), ICU_NOLANE, 0);
    for (int i = 0; i < TYPED; i++) {
        expect("typed", point_amend(sheet, typed[i].entry, typed[i].value), ICU_ACCEPTED, 0);
        entries[typed[i].entry] = typed[i].value;
        expect("a shared lane", point_amend(sheet, ICU_SHARED_LANE(i % 4), 1), ICU_SHARED, i % 4);
        expect("a bad value", point_amend(sheet, typed[i].entry, UINT32_MAX), ICU_RANGE, typed[i].entry);
        expect("point fill", point_fill(entries, fresh), ICU_ACCEPTED, 0);
        expect_cell("sheet as filled afresh", memcmp(sheet, fresh, sizeof sheet) == 0, 1);
    }
    expect_cell("ICU of the book", sheet[ICU_POINT_ICU], 1021);
    expect_cell("its letter", sheet[ICU_POINT_LETTER], 6);
}

static void single_point(void)
{
    point_sizes();
    point_start();
    point_cells();
    point_refusals();
    point_shared();
    point_amendments();
    point_run();
}

int main(void)
{
    uint32_t entries[ICU_ENTRIES], sheet[ICU_CELLS], length = 7;
    uint8_t out[ICU_LIST_BYTES];

    expect("fill, nothing lent", icu_fill(NULL, 0, NULL, 0), ICU_SIZE, 0);
    expect("amend, nothing lent", icu_amend(NULL, 0, 0, 0), ICU_SIZE, 0);
    expect("check, no bytes", icu_study_check(NULL, 0), ICU_FILE, 0);
    expect_cell("count, no bytes", icu_study_count(NULL, 0), 0);
    expect("site, no list", icu_study_site(NULL, 0, 0, NULL, 0), ICU_SIZE, 0);
    expect("write, no room", icu_study_write(NULL, 0, NULL, 0), ICU_FILE, 4);
    expect("list, no room", icu_study_list(NULL, 0, NULL, 0, &length), ICU_FILE, 4);
    expect_cell("length after a refusal", length, 7);
    expect("list, no bytes", icu_study_list(NULL, 0, out, sizeof out, &length), ICU_ACCEPTED, 0);
    expect_cell("length of its listing", length, 10);

    enter(entries);
    expect("fill, no sheet", icu_fill(entries, ICU_ENTRIES, NULL, 0), ICU_SIZE, 0);
    expect("fill", icu_fill(entries, ICU_ENTRIES, sheet, ICU_CELLS), ICU_ACCEPTED, 0);
    expect_cell("left volume", sheet[ICU_LINE(ICU_WB, ICU_LEFT_VOLUME)], 100);
    expect_cell("through volume", sheet[ICU_LINE(ICU_NB, ICU_THROUGH_VOLUME)], 400);
    expect_cell("left reference", sheet[ICU_LINE(ICU_SB, ICU_LEFT_REFERENCE)],
                sheet[ICU_LINE(ICU_SB, ICU_LEFT_ADJUSTED)] - 4000);
    expect_cell("option B", sheet[ICU_LINE(ICU_EB, ICU_OPTION_B)], ICU_BLANK);
    lane_factors(sheet);
    shared_factors(entries, sheet);
    study_before(entries);
    study_written();
    diamond();
    open_study();
    single_point();
    return wrong;
}
