/* Declares every call that the proved archive offers to C hosts.
 *
 * Link libbilgethrum.a, which `rt lib` in crates/bilgethrum writes.  The archive holds
 * x86-64 code for Linux's calling convention.  It calls nothing but memset, and has no
 * heap and no variable of its own: all state is lent by the host.
 *
 * Every call takes every number.  It does its job or refuses with one of the numbers
 * below, and a refused call changes no byte of anything lent; only a refused opening
 * still opens its line or its marker.  Line and marker share the refusals 1, 2 and 3.
 * Numbers that an answer has no use for are 0: where a call is refused, all but the
 * refusal, and the block and the record where an image is.
 *
 * Structs.  They are laid out and handed over as the System V ABI for x86-64 says, with
 * no packing pragma or option in force.  The bytes between their members mean nothing:
 * no call heeds them, and a host compares members, not bytes.
 *
 * Memory.  Pointers are valid for the length said, aligned for their type, and never
 * NULL, even with length 0.  What one call may write overlaps nothing else that is
 * lent to the same call.  Nothing is kept between calls but what stands in the words of
 * a line or a marker.  Calls that share no writable memory may run on different threads;
 * two calls on one line, or on one marker, may not run at the same time.
 *
 * Stack.  No call but bilgethrum_run takes more than BILGETHRUM_STACK_BYTES below its
 * caller, and that one no more than BILGETHRUM_RUN_STACK_BYTES. */
#ifndef BILGETHRUM_H
#define BILGETHRUM_H

#include <stddef.h>
#include <stdint.h>

#ifdef __cplusplus
extern "C" {
#endif

/* The version of these declarations: the first number grows where a host has to be
 * changed or compiled anew, the second where something is added, or less is asked of
 * a host. */
#define BILGETHRUM_VERSION_MAJOR 2
#define BILGETHRUM_VERSION_MINOR 0

#define BILGETHRUM_STACK_BYTES 1024
#define BILGETHRUM_RUN_STACK_BYTES 6144

/* ---- Limits ---- */

#define BILGETHRUM_MOST_ALPHA UINT64_C(1000000)
#define BILGETHRUM_MOST_TICKS_PER_BYTE 64
#define BILGETHRUM_MOST_LENGTH 2048
#define BILGETHRUM_MOST_INSTANT UINT64_C(1000000000000000)
#define BILGETHRUM_MOST_WAITING 64 /* of each marking */
#define BILGETHRUM_MOST_FLOWS 8
#define BILGETHRUM_MOST_RATE 10000000 /* bytes per 1,000,000 ticks */
#define BILGETHRUM_MOST_DEPTH 65535 /* bytes */

/* ---- Refusals, each by its number; 0 is none ---- */

enum bilgethrum_refusal {
    BILGETHRUM_NOT_REFUSED = 0,
    BILGETHRUM_REFUSED_LENGTH = 1,           /* arrive, view, mark: length not 1 to 2,048 */
    BILGETHRUM_REFUSED_INSTANT = 2,          /* arrive, advance, mark: instant above 10^15 */
    BILGETHRUM_REFUSED_BEFORE_CLOCK = 3,     /* arrive, advance, mark: instant before that of the last accepted call */
    BILGETHRUM_REFUSED_TOO_LONG = 4,         /* arrive, marked: transmission time above alpha */
    BILGETHRUM_REFUSED_OVERDUE = 5,          /* arrive: a decision is due strictly before the instant: advance first */
    BILGETHRUM_REFUSED_ROOM_FULL = 6,        /* arrive: 64 packets of that marking wait */
    BILGETHRUM_REFUSED_NUMBERS_USED = 7,     /* arrive: 4,294,967,295 packets were admitted since opening */
    BILGETHRUM_REFUSED_ALPHA = 8,            /* open, write: alpha not 1 to 1,000,000 */
    BILGETHRUM_REFUSED_TICKS_PER_BYTE = 9,   /* open, write: ticks per byte not 1 to 64 */
    BILGETHRUM_REFUSED_IMAGE_LENGTH = 11,    /* read: not a positive multiple of 512, or above 64 blocks */
    BILGETHRUM_REFUSED_CHECK = 12,           /* read, in the block whose index is given: the check is another */
    BILGETHRUM_REFUSED_EDITION = 13,         /* its edition is not 1 */
    BILGETHRUM_REFUSED_COUNT = 14,           /* its record count is not 31, or in the last block not 1 to 31 */
    BILGETHRUM_REFUSED_BLOCK_NUMBER = 15,    /* its block number is not its place in the image */
    BILGETHRUM_REFUSED_SETTINGS = 16,        /* its settings are out of range or unlike block 0's, or bytes 14-15 not 0 */
    BILGETHRUM_REFUSED_KIND = 17,            /* a record's kind is not 1, 2 or 3; the record's index is given too */
    BILGETHRUM_REFUSED_UNUSED_BYTES = 19,    /* the block's unused bytes are not zero */
    BILGETHRUM_REFUSED_COLUMN_SHORT = 20,    /* read: a lent column is shorter than the number of events */
    BILGETHRUM_REFUSED_COLUMNS_UNEQUAL = 21, /* write: the columns differ in length */
    BILGETHRUM_REFUSED_EVENT_COUNT = 22,     /* write: no event, or more than 1,984 */
    BILGETHRUM_REFUSED_EVENT = 23,           /* write: an event that the reader would refuse with 17 or 41 to 44 */
    BILGETHRUM_REFUSED_IMAGE_SHORT = 24,     /* write: the lent image is too short */
    BILGETHRUM_REFUSED_OUTSIDE = 31,         /* view: the payload reaches beyond its area */
    BILGETHRUM_REFUSED_ANSWER_SHORT = 32,    /* run: the answer area is shorter than the text; run gives -32 */
    BILGETHRUM_REFUSED_SPARE_BYTE = 41,      /* read, in the record whose index is given too: byte 1 is not 0 */
    BILGETHRUM_REFUSED_RECORD_LENGTH = 42,   /* its length is not 1 to 2,048, or an advance's not 0 */
    BILGETHRUM_REFUSED_RECORD_PLACE = 43,    /* it is an advance and its place is not 0 */
    BILGETHRUM_REFUSED_RECORD_INSTANT = 44,  /* its instant is above 10^15 */
    BILGETHRUM_REFUSED_FLOW = 51,            /* open_marker: no flow, or more than 8; mark: a flow that was not opened */
    BILGETHRUM_REFUSED_RATE = 52,            /* open_marker: a flow's rate not 1 to 10,000,000 */
    BILGETHRUM_REFUSED_DEPTH = 53            /* open_marker: a flow's depth not 1 to 65,535 */
};

/* ---- The line: scheduler and waiting room ---- */

/* What a host holds for each line, wherever it likes, on the stack or static.  The
 * words are the calls' own business, with one PREMISE: a line that is handed to
 * bilgethrum_arrive, bilgethrum_advance or bilgethrum_tally comes from bilgethrum_open
 * and from calls on it, copied or moved as a whole at most.  Nothing is promised of
 * any other words. */
#define BILGETHRUM_LINE_WORDS 851

typedef struct bilgethrum_line {
    uint32_t words[BILGETHRUM_LINE_WORDS];
} bilgethrum_line;

typedef struct bilgethrum_settings {
    uint64_t alpha;          /* ticks: how much later an unmarked packet may start */
    uint32_t ticks_per_byte; /* transmission time is length times this */
} bilgethrum_settings;

typedef struct bilgethrum_packet {
    uint64_t arrival; /* instant, in ticks since the opening */
    uint32_t length;  /* bytes */
    uint32_t place;   /* where the payload lies in its area; handed back as it came */
    uint32_t marked;  /* 0 unmarked; any other number marked, handed back as 1 */
} bilgethrum_packet;

/* Opens a line, whatever stood in its words; the clock starts at 0.  Gives the refusal
 * number (8, 9).  A refused opening opens the line all the same, with alpha 1 and 1
 * tick per byte. */
uint32_t bilgethrum_open(bilgethrum_line *line, bilgethrum_settings settings);

typedef struct bilgethrum_arrival {
    uint32_t refusal; /* 0, or 1 to 7 */
    uint32_t number;  /* the packet's number, from 1; 0 where refused */
    uint64_t extra;   /* its extra delay now, in ticks; 0 for a marked packet */
} bilgethrum_arrival;

/* A packet arrives and waits, or is refused.  A host that is late with its advances
 * meets BILGETHRUM_REFUSED_OVERDUE: every decision that is due before the packet's arrival has
 * to be taken first.  Then the packet may be handed over again. */
bilgethrum_arrival bilgethrum_arrive(bilgethrum_line *line, bilgethrum_packet packet);

typedef struct bilgethrum_decision {
    uint32_t refusal; /* 0, or 2 or 3 */
    uint32_t number;  /* the packet that starts; 0 where nothing is due */
    uint64_t start;   /* the instant it starts: the due instant, which may lie before `at` */
    uint64_t extra;   /* its extra delay then, in ticks; 0 if it is marked */
    uint32_t dropped; /* how many packets are dropped: the numbers just below `number` */
    bilgethrum_packet packet; /* the one that starts, as it arrived; all 0 where none does */
} bilgethrum_decision;

/* The clock goes on to `at`, and one decision is taken if one is due by then.  Where
 * nothing is due, every number of the answer is 0, the refusal too.  Call it again, with
 * the same instant, until nothing is due. */
bilgethrum_decision bilgethrum_advance(bilgethrum_line *line, uint64_t at);

typedef struct bilgethrum_tallies {
    uint32_t unmarked_admitted;
    uint32_t marked_admitted;
    uint32_t unmarked_started;
    uint32_t marked_started;
    uint32_t marked_dropped;
} bilgethrum_tallies;

/* The five tallies since the opening. */
bilgethrum_tallies bilgethrum_tally(const bilgethrum_line *line);

/* ---- The marker: a bucket for each flow ---- */

/* What a host holds for each marker, wherever it likes.  The words are the calls' own
 * business, with one PREMISE: a marker that is handed to bilgethrum_mark comes from
 * bilgethrum_open_marker and from calls on it, copied or moved as a whole at most.
 * Nothing is promised of any other words. */
#define BILGETHRUM_MARKER_WORDS 34

typedef struct bilgethrum_marker {
    uint64_t words[BILGETHRUM_MARKER_WORDS];
} bilgethrum_marker;

/* A flow is the packets of one sender.  It has a bucket of bytes, which is full at the
 * opening and fills again at the rate, up to the depth.  No fraction of a byte is lost. */
typedef struct bilgethrum_flow {
    uint32_t rate;  /* bytes per 1,000,000 ticks */
    uint32_t depth; /* bytes: the most that the bucket holds */
} bilgethrum_flow;

typedef struct bilgethrum_flows {
    uint32_t count; /* flows 0 to count - 1 are opened */
    bilgethrum_flow each[BILGETHRUM_MOST_FLOWS]; /* those from count on mean nothing */
} bilgethrum_flows;

/* Opens a marker, whatever stood in its words; the clock starts at 0, and every bucket
 * is full, so to open anew fills them all.  Gives the refusal number: 51, else 52 where
 * any flow's rate is out of range, else 53 where any flow's depth is.  A refused opening
 * opens the marker all the same, with one flow of rate 1 and depth 1. */
uint32_t bilgethrum_open_marker(bilgethrum_marker *marker, bilgethrum_flows flows);

typedef struct bilgethrum_marking {
    uint32_t refusal; /* 0, or 51, 1, 2 or 3, in this order of checking */
    uint32_t marked;  /* 0 left unmarked and paid for, 1 marked; 0 where refused */
} bilgethrum_marking;

/* A packet of a flow comes to the door.  It is left unmarked exactly if the flow's
 * bucket holds its whole length at that instant, and the length is then taken from the
 * bucket; otherwise it is marked, and nothing is taken.  Instants are in ticks since the
 * marker's opening, and all flows have one clock: the instant of the last accepted
 * packet of any flow.
 *
 * For every flow and every stretch of accepted calls since the opening, 1,000,000 times
 * the bytes left unmarked is at most 1,000,000 times the depth plus the rate times the
 * span from the first of the calls to the last. */
bilgethrum_marking bilgethrum_mark(bilgethrum_marker *marker, uint32_t flow, uint32_t length,
                                   uint64_t at);

/* ---- Traces: events in columns, images of 512-byte blocks ---- */

#define BILGETHRUM_BLOCK_BYTES 512
#define BILGETHRUM_MOST_BLOCKS 64
#define BILGETHRUM_MOST_EVENTS 1984
#define BILGETHRUM_IMAGE_ENOUGH (BILGETHRUM_MOST_BLOCKS * BILGETHRUM_BLOCK_BYTES)

enum bilgethrum_kind {
    BILGETHRUM_UNMARKED_ARRIVAL = 1,
    BILGETHRUM_MARKED_ARRIVAL = 2,
    BILGETHRUM_ADVANCE = 3 /* its length and place are 0 */
};

typedef struct bilgethrum_reading {
    uint32_t refusal; /* 0, 11 to 17, 19, 20, or 41 to 44 */
    uint32_t block;   /* the index of the refused block; 0 for 11 and 20 */
    uint32_t record;  /* the index of the refused record in its block, for 17 and 41 to 44; else 0 */
    size_t events;    /* how many were read; 0 where refused */
    bilgethrum_settings settings; /* the image's; both 0 where refused */
} bilgethrum_reading;

/* Reads an image into four columns, entry i of each for event i.  They may differ in
 * length, and BILGETHRUM_MOST_EVENTS entries are always enough.  Entries beyond the
 * events stay as they were.  After 11 blocks are judged in order: each for 12 to 16, then
 * record by record for 17 and 41 to 44, last for 19; 20 comes where no block is refused.
 * Blocks and records count from 0. */
bilgethrum_reading bilgethrum_read(const uint8_t *image, size_t image_len,
                                   uint8_t *kinds, size_t kinds_len,
                                   uint32_t *lengths, size_t lengths_len,
                                   uint32_t *places, size_t places_len,
                                   uint64_t *instants, size_t instants_len);

typedef struct bilgethrum_writing {
    uint32_t refusal; /* 0, 8, 9, or 21 to 24 */
    size_t bytes;     /* how long the image is; 0 where refused */
} bilgethrum_writing;

/* Writes the events of the columns as an image, at the front of the lent one, for which
 * BILGETHRUM_IMAGE_ENOUGH bytes are always enough.  Bytes beyond it stay as they were. */
bilgethrum_writing bilgethrum_write(bilgethrum_settings settings,
                                    const uint8_t *kinds, size_t kinds_len,
                                    const uint32_t *lengths, size_t lengths_len,
                                    const uint32_t *places, size_t places_len,
                                    const uint64_t *instants, size_t instants_len,
                                    uint8_t *image, size_t image_len);

/* ---- Payloads ---- */

/* Whether the payload of a packet lies within its area, unmarked or marked: gives 0
 * where it is area[place .. place + length), else the refusal number (1, 31).  No byte
 * of either area is read. */
uint32_t bilgethrum_view_refusal(const uint8_t *unmarked, size_t unmarked_len,
                                 const uint8_t *marked, size_t marked_len,
                                 bilgethrum_packet packet);

/* ---- The whole run: trace image in, text out ---- */

/* An answer area of this many bytes is enough for every image, and lets the run play
 * each event once.  For fewer events less is enough: only an area with less than
 * BILGETHRUM_LONGEST_LINE for each event and BILGETHRUM_TALLY_LINE more makes the run
 * measure the text first, and play each event twice.
 *
 * No event's line is longer than one of a start: a letter, the packet's number, of at
 * most 1,984, the start, at most 10^15, the extra delay, at most 1,000,000, the packets
 * dropped, at most 64, a space before each, and a line end:
 *     1 + (1+4) + (1+16) + (1+7) + (1+2) + 1 = 35.
 * The tally line has five counts, each at most 1,984:  1 + 5*(1+4) + 1 = 27.
 * A refused image has one line, which is shorter. */
#define BILGETHRUM_LONGEST_LINE 35
#define BILGETHRUM_TALLY_LINE 27
#define BILGETHRUM_ANSWER_ENOUGH \
    (BILGETHRUM_MOST_EVENTS * BILGETHRUM_LONGEST_LINE + BILGETHRUM_TALLY_LINE)

/* What comes back where the answer area is shorter than the text. */
#define BILGETHRUM_AREA_TOO_SHORT (-BILGETHRUM_REFUSED_ANSWER_SHORT)

/* Runs the trace in image[0 .. image_len) on a fresh scheduler and writes its text
 * at the start of answer[0 .. answer_len).
 *
 * Gives the text's length in bytes; there is no closing zero byte.  Bytes of the
 * area beyond the text stay as they were.  Where the area is shorter than the text
 * it gives BILGETHRUM_AREA_TOO_SHORT and the whole area stays as it was.  A refused
 * image is an ordinary outcome: its text is the one line "X c b r", with the refusal,
 * the block and the record that bilgethrum_read gives. */
int64_t bilgethrum_run(const uint8_t *image, size_t image_len,
                       uint8_t *answer, size_t answer_len);

#ifdef __cplusplus
}
#endif

#endif
