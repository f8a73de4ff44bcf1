/*
 * Rates the capacity of a road junction by Intersection Capacity Utilization 2003:
 * fills a worksheet, amends it, does both for a single point interchange, rates a diamond interchange,
 * keeps the sites of several offices apart in one open study, and reads, writes and lists study files.
 *
 * All numbers are whole. Volumes and the ideal flow of a lane, which are entries, are vehicles per hour;
 * the flows that the lines give are tenths of a vehicle per hour (18050 is 1,805.0 an hour); times are
 * milliseconds, the cycle seconds, the ICU tenths of a percent. A measured lane factor, which is an entry,
 * is thousandths (971 is 0.971); the factors and shares that the lines give are ten-thousandths.
 *
 * A list passes as a pointer and the number of its elements. Lists are lent for the call only;
 * nothing is kept afterwards. A pointer may be null where its length is 0, and nowhere else; lists
 * of numbers must be aligned as such, and a list that a call writes may not overlap another.
 *
 * The calls keep no state. Any two may run at the same time, in any threads, as long as neither
 * writes a list that the other is lent; both may read the same one. What this asks of a program whose
 * threads share an open study stands with those calls.
 *
 * Every call says what it refuses. Where several refusals apply, the first in the order of their
 * numbers is answered, unless the call says otherwise. A refused call alters nothing.
 */
#ifndef ICU_H
#define ICU_H

#include <stddef.h>
#include <stdint.h>

#ifdef __cplusplus
extern "C" {
#endif

/* The version: a change of the first number changes what programs may rely on, a change of the
 * second what the same entries may give or what calls there are. 1.1: those who cross have their time
 * where nobody drives. 1.2: icu_diamond; all other calls give what they gave. 1.3: icu_open_add,
 * icu_open_amend, icu_open_read; all other calls give what they gave. 2.0: lines 5 to 9 and 22 are tenths
 * of a vehicle per hour, where they were whole ones, and the times that come from them are the finer for
 * it. Entries, and so study files, are what they were; a sheet that an earlier version filled is to be
 * filled again before it is amended, or its flows stand in two units. 3.0: each movement has a sixth
 * entry, its measured lane factor, so entries, sheets, records and open studies have other lengths and
 * places. A sheet, a record or an open study of an earlier version is to be made anew; its study files
 * are read. Entries without measured factors give what they gave. Study files are written in a new kind,
 * which earlier versions refuse with ICU_FILE at 0. 3.1: icu_point_start, icu_point_fill,
 * icu_point_amend; all other calls give what they gave. */
#define ICU2003_VERSION_MAJOR 3
#define ICU2003_VERSION_MINOR 1
#define ICU2003_VERSION "3.1"

/* ------------------------------------------------------------------ answers */

/* Number 0 with place 0 where the call was accepted, else the refusal and where it lies. */
typedef struct IcuAnswer {
    uint32_t number;
    uint32_t place;
} IcuAnswer;

enum {
    ICU_ACCEPTED = 0,
    ICU_SIZE = 1,   /* a list of the wrong length; place 0 */
    ICU_ENTRY = 2,  /* an amendment of an entry above 92; place 0 */
    ICU_RANGE = 3,  /* an entry outside its range; place: the lowest such entry, 0 to 92 */
    ICU_SHARED = 4, /* a shared lane with left lanes or without through lanes, or any shared lane of
                       a single point; place: the lowest such approach, 0 to 3 */
    ICU_NOLANE = 5, /* volume without a lane to use; place: the lowest such movement, 0 to 11 */
    ICU_FILE = 6,   /* a study file badly laid out, a site it lacks, or too little room;
                       place: see the calls */
    ICU_STORE = 7,  /* a storage of a diamond interchange outside its range; place: the lowest
                       such, 186 to 189 */
    ICU_TRAVEL = 8, /* its travel time outside its range; place 190 */
    ICU_OWNER = 9,  /* the office has no site there, or gives its number as 0; place: the site, or
                       0 for an add */
    ICU_FULL = 10   /* an add to an open study without a free place; place 0 */
};

/* ------------------------------------------------------------------ the 93 entries */

#define ICU_ENTRIES 93

/* Approaches, and the turns of each; movement 3a + t is turn t of approach a. */
enum { ICU_EB = 0, ICU_WB = 1, ICU_NB = 2, ICU_SB = 3 };
enum { ICU_LEFT = 0, ICU_THROUGH = 1, ICU_RIGHT = 2 };
#define ICU_MOVEMENT(approach, turn) (3 * (approach) + (turn))

/* Places of movement m's entries: 6m + j. */
#define ICU_LANES(m) (6 * (m))             /* 0 to 6 */
#define ICU_VOLUME(m) (6 * (m) + 1)        /* 0 to 9,999 vehicles per hour */
#define ICU_IDEAL_FLOW(m) (6 * (m) + 2)    /* 1,000 to 2,400 vehicles per hour, usually 1,900 */
#define ICU_LOST_TIME(m) (6 * (m) + 3)     /* 0 to 20,000 ms */
#define ICU_MINIMUM_GREEN(m) (6 * (m) + 4) /* 0 to 60,000 ms */
#define ICU_LANE_FACTOR(m) (6 * (m) + 5)   /* 500 to 1,000 thousandths as measured, usually 0 */

/* A lane factor of 0 stands for the table's. A measured one takes its place in lines 5 to 9, for any
 * number of lanes, one included; line 9 of a shared lane takes the left movement's. */
#define ICU_TABLE_FACTOR 0

/* Places of approach a's entries: 72 + 5a + j. */
#define ICU_SHARED_LANE(a) (72 + 5 * (a))     /* 1: a through lane is shared with the lefts */
#define ICU_PEDESTRIANS(a) (72 + 5 * (a) + 1) /* 0 to 2,000 per hour */
#define ICU_PUSH_BUTTON(a) (72 + 5 * (a) + 2) /* 1: pedestrians have a button */
#define ICU_PEDESTRIAN_TIME(a) (72 + 5 * (a) + 3) /* 0 to 60,000 ms */
#define ICU_WALK_TIME(a) ICU_PEDESTRIAN_TIME(a)   /* its older name */
#define ICU_FREE_RIGHT(a) (72 + 5 * (a) + 4)  /* 1: rights do not wait for a phase */

#define ICU_CYCLE 92 /* 30 to 240 s */

/* Every entry is present and in range, also of a movement without lanes. */

/* ------------------------------------------------------------------ the 221 cells of a sheet */

#define ICU_CELLS 221

/* Cells 0 to 92 are the entries. Then the 28 lines of each approach, k from 1. */
#define ICU_LINE(a, k) (93 + 28 * (a) + ((k) - 1))

/* The lines by name, for ICU_LINE, and their units. */
enum {
    ICU_LEFT_VOLUME = 1,          /* vehicles per hour, turns without a lane folded in */
    ICU_THROUGH_VOLUME = 2,       /* vehicles per hour */
    ICU_RIGHT_VOLUME = 3,         /* vehicles per hour */
    ICU_TURNING_FACTOR = 4,       /* of the through lanes, ten-thousandths */
    ICU_LEFT_FLOW = 5,            /* lines 5 to 9: saturation flows, tenths of a vehicle per hour */
    ICU_THROUGH_FLOW = 6,
    ICU_RIGHT_FLOW = 7,
    ICU_STRAIGHT_FLOW = 8,        /* of the through lanes without folded lefts */
    ICU_LEFT_LANE_FLOW = 9,       /* of the lefts, in their own or a shared lane */
    ICU_RIGHT_INTERFERENCE = 10,  /* pedestrians in the way of the rights, ms */
    ICU_THROUGH_INTERFERENCE = 11, /* ms */
    ICU_PEDESTRIAN_FREQUENCY = 12, /* ten-thousandths of the cycles */
    ICU_LEFT_REFERENCE = 13,      /* reference times, ms */
    ICU_THROUGH_REFERENCE = 14,
    ICU_RIGHT_REFERENCE = 15,
    ICU_LEFT_ADJUSTED = 16,       /* adjusted reference times, ms */
    ICU_THROUGH_ADJUSTED = 17,
    ICU_RIGHT_ADJUSTED = 18,
    ICU_HEAVIEST_LANE = 19,       /* volume of the left lane, vehicles per hour */
    ICU_LEFT_SHARE = 20,          /* share of lefts in it, ten-thousandths */
    ICU_LEFT_EQUIVALENT = 21,     /* through-vehicle equivalent of a left, ten-thousandths */
    ICU_LEFT_LANE_SATURATION = 22, /* flow of the left lane, tenths of a vehicle per hour */
    ICU_OPTION_A = 23,            /* permitted times by options A and B, ms or ICU_BLANK */
    ICU_OPTION_B = 24,
    ICU_PERMITTED_REFERENCE = 25, /* the lesser of the two, ms or ICU_BLANK */
    ICU_PERMITTED_ADJUSTED = 26,  /* ms or ICU_BLANK */
    ICU_SPLIT_REFERENCE = 27,     /* ms */
    ICU_SPLIT_ADJUSTED = 28       /* ms */
};

/* How many of a flow's parts make a vehicle per hour, in lines 5 to 9 and 22. */
#define ICU_FLOW_UNIT 10

/* Four cells of each pair of approaches: totals in ms, and the index of the least. */
#define ICU_PAIR_EB_WB 205
#define ICU_PAIR_NB_SB 209
enum { ICU_PROTECTED = 0, ICU_PERMITTED = 1, ICU_SPLIT = 2, ICU_PICKED = 3 };
/* For instance sheet[ICU_PAIR_NB_SB + ICU_PICKED] is 0, 1 or 2: the phasing picked. */

/* The last eight cells. */
#define ICU_RIGHT_TOTAL(a) (213 + (a)) /* ms, by approach */
#define ICU_COMBINED 217               /* the two picked totals added, ms */
#define ICU_REQUIRED 218               /* the largest of combined and the right totals, ms */
#define ICU_ICU 219                    /* tenths of a percent */
#define ICU_LETTER 220                 /* 0 for A to 7 for H */

/* "Not allowed": in lines 23 to 26, and in the protected and permitted totals. */
#define ICU_BLANK UINT32_C(4294967295)

/* ------------------------------------------------------------------ sheets */

/*
 * Judges the entries and fills the sheet from them: all 221 cells.
 * Refuses ICU_SIZE (place 0) where entries_len is not 93 or sheet_len not 221, then ICU_RANGE,
 * ICU_SHARED, ICU_NOLANE. The sheet stays as it was on a refusal; the entries always do.
 */
IcuAnswer icu_fill(const uint32_t *entries, size_t entries_len, uint32_t *sheet, size_t sheet_len);

/*
 * Amends one entry of a sheet: stores the value and rewrites each cell that the entry reaches
 * with what a fresh fill of the amended entries would hold there. All other cells stay, whatever
 * they held.
 * Refuses ICU_SIZE (place 0) where len is not 221, ICU_ENTRY (place 0) where entry is above 92,
 * then ICU_RANGE, ICU_SHARED, ICU_NOLANE of all the entries as they would stand.
 * The sheet stays as it was on a refusal.
 */
IcuAnswer icu_amend(uint32_t *sheet, size_t len, uint32_t entry, uint32_t value);

/* ------------------------------------------------------------------ single point interchanges */

/*
 * All lefts of a single point interchange turn at one point and are protected: there is no other phasing,
 * and no lane is shared. Its sheet is worked out of the same 93 entries, and its lines are those of a
 * junction, the first 18 of them. Study files and open studies may keep its entries, but list and read
 * every site as a junction.
 */
#define ICU_POINT_CELLS 175

/* Cells 0 to 92 are the entries. Then the 18 lines of each approach, k from 1: ICU_LEFT_VOLUME to
 * ICU_RIGHT_ADJUSTED. Without a shared lane line 8 is line 6 and line 9 is line 5. */
#define ICU_POINT_LINE(a, k) (93 + 18 * (a) + ((k) - 1))

/* The protected total of each pair of approaches, ms. */
#define ICU_POINT_EB_WB 165
#define ICU_POINT_NB_SB 166

/* The last eight cells. A fill leaves ICU_BLANK in no cell. */
#define ICU_POINT_RIGHT_TOTAL(a) (167 + (a)) /* ms, by approach */
#define ICU_POINT_COMBINED 171               /* the two totals added, ms */
#define ICU_POINT_REQUIRED 172               /* the largest of combined and the right totals, ms */
#define ICU_POINT_ICU 173                    /* tenths of a percent */
#define ICU_POINT_LETTER 174                 /* 0 for A to 7 for H */

/*
 * Writes the 93 entries that a single point starts from: ideal flow 2,000 vehicles per hour; lost time
 * 8,000 ms for lefts, 6,000 ms for throughs and rights; cycle 120 s; all else 0, lanes and minimum greens
 * too. They are acceptable and fill to an ICU of 0, letter A.
 * Refuses ICU_SIZE (place 0) where len is not 93. The list stays as it was on a refusal.
 */
IcuAnswer icu_point_start(uint32_t *entries, size_t len);

/*
 * Judges the entries and fills the sheet of a single point from them: all 175 cells.
 * Refuses ICU_SIZE (place 0) where entries_len is not 93 or sheet_len not 175, then ICU_RANGE,
 * ICU_SHARED of any shared lane, ICU_NOLANE. The sheet stays as it was on a refusal; the entries always
 * do.
 */
IcuAnswer icu_point_fill(const uint32_t *entries, size_t entries_len, uint32_t *sheet,
                         size_t sheet_len);

/*
 * Amends one entry of a single point's sheet as icu_amend does of a junction's: it reaches the same cells,
 * as far as this sheet has them, of its pair the one total.
 * Refuses ICU_SIZE (place 0) where len is not 175, ICU_ENTRY (place 0) where entry is above 92, then
 * ICU_RANGE, ICU_SHARED of any shared lane, ICU_NOLANE of all the entries as they would stand.
 * The sheet stays as it was on a refusal.
 */
IcuAnswer icu_point_amend(uint32_t *sheet, size_t len, uint32_t entry, uint32_t value);

/* ------------------------------------------------------------------ diamond interchanges */

/*
 * A record of 191 numbers: the entries of the west junction of an east-west arterial, those of the
 * east junction, four storages and the travel time between the two. Both junctions have the same cycle.
 */
#define ICU_RECORD 191
#define ICU_WEST(entry) (entry)        /* 0 to 92 */
#define ICU_EAST(entry) (93 + (entry)) /* 93 to 185 */

/* Vehicles that find room between the junctions, 1 to 999. */
#define ICU_STORAGE_WB_LEFT 186   /* the west junction's WB left */
#define ICU_STORAGE_EB_LEFT 187   /* the east junction's EB left */
#define ICU_STORAGE_EASTBOUND 188 /* the road eastbound, for the west ramp's SB left */
#define ICU_STORAGE_WESTBOUND 189 /* the road westbound, for the east ramp's NB left */

#define ICU_TRAVEL_TIME 190 /* 0 to 60,000 ms */

/* What is worked out of it: 29 cells. */
#define ICU_DIAMOND_CELLS 29

/* The interchange times, ms: lines 16 to 18 of the junctions' own sheets, 0 for a free right. */
enum {
    ICU_WEST_EBT = 0,
    ICU_WEST_EBR = 1,
    ICU_WEST_WBL = 2,
    ICU_WEST_WBT = 3,
    ICU_WEST_SBL = 4,
    ICU_WEST_SBT = 5,
    ICU_WEST_SBR = 6,
    ICU_EAST_WBT = 7,
    ICU_EAST_WBR = 8,
    ICU_EAST_EBL = 9,
    ICU_EAST_EBT = 10,
    ICU_EAST_NBL = 11,
    ICU_EAST_NBT = 12,
    ICU_EAST_NBR = 13
};

/* Of each side, ms. */
enum { ICU_WEST_SIDE = 0, ICU_EAST_SIDE = 1 };
#define ICU_ISOLATED(side) (14 + (side))           /* isolated time 1 */
#define ICU_ISOLATED_ALTERNATE(side) (16 + (side)) /* the alternate check */
#define ICU_ISOLATED_COMBINED(side) (18 + (side))  /* the larger of the two */
#define ICU_OVERLAP(side) (20 + (side))

/* The timing plans, ms, or ICU_BLANK where the storages do not allow one. */
enum { ICU_LEADING_ALTERNATE = 0, ICU_LAGGING = 1, ICU_LEAD_LAG = 2 };
#define ICU_PLAN(plan) (22 + (plan))

#define ICU_PLAN_PICKED 25    /* 0, 1 or 2: the plan that takes least, the earlier on a tie */
#define ICU_BEST 26           /* its time, ms */
#define ICU_DIAMOND_ICU 27    /* tenths of a percent */
#define ICU_DIAMOND_LETTER 28 /* 0 for A to 7 for H */

/*
 * Judges the record and works out the 29 cells.
 * Refuses ICU_SIZE (place 0) where record_len is not 191 or cells_len not 29; then ICU_RANGE,
 * ICU_SHARED and ICU_NOLANE, each over both junctions, the east's places counted on from the west's:
 * entries from 93, approaches from 4, movements from 12; an east cycle that is not the west's is
 * ICU_RANGE at 185; then ICU_STORE and ICU_TRAVEL.
 * The cells stay as they were on a refusal; the record always does.
 */
IcuAnswer icu_diamond(const uint32_t *record, size_t record_len, uint32_t *cells, size_t cells_len);

/* ------------------------------------------------------------------ open studies */

/*
 * An open study is two lists: the owners of its 165 places and the blocks of 93 entries that stand at
 * them. An owner is the number of an office, 0 where the place is free. Places and sites are counted
 * from 0. An office is any number but 0; there may be as many offices as places.
 *
 * An office adds sites, amends its own and reads its own. What it does alters no block and no owner of
 * another's, and the answers tell it nothing of another's: only an add says whether a place is free, and
 * the lowest is the one that it gets. A site reads as the fresh fill of the entries it was added with,
 * all its accepted amendments made in order.
 *
 * Both lists are lent, so they may hold anything. What a free block holds is of no matter; a block with
 * bad entries is refused when it is read, and may be put right by an amendment.
 *
 * Checks come in this order: ICU_SIZE, ICU_ENTRY, ICU_OWNER, ICU_RANGE, ICU_SHARED, ICU_NOLANE, ICU_FULL.
 *
 * Threads that share a study: an add writes owners and blocks, an amendment writes blocks. While one
 * thread is in either of these no other may be in any call with the same study, also not for another
 * office; reads may run together. So put one lock around each call; a readers-writer lock does, with
 * add and amend as its writers. A call is one step: between two of them others may have added, and a
 * refusal or a lowest place holds as of its own call.
 *
 * The office's number is what the program says it is. The calls keep numbers apart; they do not prove
 * who is calling. That is for the program to do.
 */
#define ICU_PLACES 165
#define ICU_BLOCKS (165 * 93) /* entry e of a site stands at 93 * site + e */

/*
 * Adds a site of the office: the lowest free place gets the office as its owner and the entries as its
 * block, and *place that place, 0 to 164. All else stays.
 * Refuses ICU_SIZE (place 0) where owners_len is not 165, blocks_len not 165 times 93 or entries_len
 * not 93; ICU_OWNER (place 0) where office is 0; then ICU_RANGE, ICU_SHARED and ICU_NOLANE of the
 * entries; then ICU_FULL (place 0) where no place is free.
 * Owners, blocks and *place stay as they were on a refusal; the entries always do.
 */
IcuAnswer icu_open_add(uint32_t *owners, size_t owners_len, uint32_t *blocks, size_t blocks_len,
                       uint32_t office, const uint32_t *entries, size_t entries_len,
                       uint32_t *place);

/*
 * Amends one entry of a site of the office's own: that one number of its block. No sheet is worked out.
 * Refuses ICU_SIZE (place 0) where owners_len is not 165 or blocks_len not 165 times 93; ICU_ENTRY
 * (place 0) where entry is above 92; ICU_OWNER (place: the site as asked for, whatever number it is)
 * where office is 0 and where the place is above 164, free or another's; then ICU_RANGE, ICU_SHARED and
 * ICU_NOLANE of the block's entries as they would stand, with places within the block.
 * The blocks stay as they were on a refusal; the owners always do.
 */
IcuAnswer icu_open_amend(const uint32_t *owners, size_t owners_len, uint32_t *blocks,
                         size_t blocks_len, uint32_t office, uint32_t site, uint32_t entry,
                         uint32_t value);

/*
 * Reads a site of the office's own: fills the sheet from its block, all 221 cells.
 * Refuses ICU_SIZE (place 0) where owners_len is not 165, blocks_len not 165 times 93 or sheet_len not
 * 221; ICU_OWNER as icu_open_amend does; then ICU_RANGE, ICU_SHARED and ICU_NOLANE of the block, with
 * places within it.
 * The sheet stays as it was on a refusal; owners and blocks always do.
 */
IcuAnswer icu_open_read(const uint32_t *owners, size_t owners_len, const uint32_t *blocks,
                        size_t blocks_len, uint32_t office, uint32_t site, uint32_t *sheet,
                        size_t sheet_len);

/* ------------------------------------------------------------------ study files */

/*
 * A study file has the bytes "ICUT", the number of sites k (0 to 165), k offsets, and k blocks of
 * 93 entries, all as 32-bit numbers, low byte first. The calls below do not judge entries by
 * ICU_RANGE to ICU_NOLANE: a block with bad entries is well laid out.
 *
 * A study file of before version 3.0 has the bytes "ICUS", up to 180 sites, and blocks of 81 entries:
 * those of today without the lane factors. It is read, each lane factor being 0 then, and not written;
 * a place that is told of one of its sites is that of the entry among the 93.
 */
#define ICU_SITES 165
#define ICU_FILE_BYTES(k) (8 + 376 * (k))
#define ICU_SITES_BEFORE 180
#define ICU_FILE_BYTES_BEFORE(k) (8 + 328 * (k))

/* The longest file that is read, of either kind. */
#define ICU_MOST_FILE_BYTES 62048

/* Room enough for any listing, of either kind: at most 180 lines. */
#define ICU_LIST_BYTES 6120

/*
 * Says whether the file is well laid out, as either kind by its first four bytes.
 * Refuses ICU_FILE: place of the first byte of the first wrong field (opening 0, count 4, offsets
 * in order), or len where the file is short, a field cut short included, or the first byte too many.
 */
IcuAnswer icu_study_check(const uint8_t *file, size_t len);

/* The number of sites in the file; 0 where icu_study_check refuses it. */
uint32_t icu_study_count(const uint8_t *file, size_t len);

/*
 * Copies the entries of one site, counted from 0, into a list of 93 numbers, of a file of either kind.
 * Refuses ICU_SIZE (place 0) where entries_len is not 93; then ICU_FILE with the place that
 * icu_study_check gives, or place 4 where a good file lacks the site.
 * The list stays as it was on a refusal.
 */
IcuAnswer icu_study_site(const uint8_t *file, size_t len, uint32_t site, uint32_t *entries,
                         size_t entries_len);

/*
 * Writes a study file, an "ICUT", of len / 93 sites at the front of out: ICU_FILE_BYTES(len / 93) bytes.
 * The bytes after it stay.
 * Refuses ICU_SIZE (place 0) where len is not a multiple of 93; then ICU_FILE, place 0 for more
 * than 165 sites, place 4 where out is too short. All of out stays as it was on a refusal.
 */
IcuAnswer icu_study_write(const uint32_t *entries, size_t len, uint8_t *out, size_t out_len);

/*
 * Puts the listing of the file at the front of out and its length in bytes into *length. There
 * is one line for each site: its number from 1, the ICU, the letter and both picked phasings as P
 * (protected), M (permitted) or S (split), such as "1 666 C PP"; or, for a refused site, its
 * number, R and the refusal's number, and the place, such as "2 R3 92". Each line ends with a
 * line feed; no zero byte follows. A bad file is accepted too: its listing is the one line
 * "file R6" and the place. The bytes after the listing stay.
 * Refuses ICU_FILE, place 4, where out is shorter than the listing; out and *length then stay as
 * they were. ICU_LIST_BYTES are always enough.
 */
IcuAnswer icu_study_list(const uint8_t *file, size_t len, uint8_t *out, size_t out_len,
                         uint32_t *length);

#ifdef __cplusplus
}
#endif

#endif
