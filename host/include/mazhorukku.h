/* mazhorukku.h: the calls of Mazhorukku, a proved hazard simulator for digital circuits, as C functions.

   The functions are in one static archive, which host/archives.sh writes to target/staticlib/libexport.a. It needs memcpy
   and memset of the C library and nothing else. README.md has the whole story; host/example.c is a program to start from.

   WORDS

     net    Inputs are nets 0 to I - 1, and gate j, counted from 0, drives net I + j.
     lane   One of 64 simulations that are done at once, 0 to 63. Bit L of a word is the level in lane L; no lane sees another.
     time   A whole number from 0 on, in the unit of the delays. Time 0 is the circuit at rest.
     frame  Each net has frames, counted from 0. Frame 0 is time 0; every later frame is a time at which the delays allow the
            net to change, whether it does or not (a potential time). A frame lasts until the next one; the last has no end.
     area   An array of the caller's that a call fills.

   ANSWERS

   Every call asks its questions in a fixed order. If all are answered "yes" it answers 0 and writes its numbers into the array
   that is its last parameter. Else it answers the number of the first question with a "no" (enum mazh_answer), and leaves that
   last array as it was. What a call leaves in its areas is said at each call, for 0 and for every other number.

   RULES FOR CALLERS

   The calls take any contents: a damaged file, lists that do not fit together, areas full of rubbish, parts that no run made.
   What they cannot find out is what a pointer points at, so:

   1. No pointer is NULL. That holds for an empty list too: hand in any valid pointer of the type, and the length 0.
   2. A length counts elements, not bytes, and is not greater than what is there. The array that is a last parameter has as many
      elements as the parameter shows.
   3. Areas and last arrays, which are written, overlap nothing else that the call is handed. What is only read may overlap.
   4. Every pointer is aligned for its type, as every array of that type is.
   5. `limit` has 16 bits and `lane` has 8. C cuts a larger number without a word: 65,537 arrives as the limit 1, and 256 as
      lane 0. Test a number of a wider type before you hand it in.

   The calls keep no state and allocate nothing: what a call answers and leaves depends on what it is handed alone. Several
   threads may call at once, as long as none writes what another uses. Of the stack, measured on x86-64, mazh_mark needs 37
   kilobytes, mazh_size 15, mazh_run_fitted 12, and the others less than 6.  */
#ifndef MAZHORUKKU_H
#define MAZHORUKKU_H

#include <stdint.h>

#ifdef __cplusplus
extern "C" {
#endif

/* ---- THE CIRCUIT FILE

   Numbers of two bytes have the lowest byte first.

     bytes 0 and 1            I + 256, where I is the number of inputs
     bytes 2 and 3            G, the number of gates
     from 4, 4 for each gate  where its record begins, counted from the file's start (2 bytes), and its length (2)
     then, to the end         the records, in the order of the gates, with no gaps

   A gate's record: its kind (1 byte), transport delay (2), inertial delay (2), and the nets that it reads (2 each), its
   fan-ins. BUF and NOT read one net, the others two to eight; a net may stand there twice. XOR is 1 when an odd number of
   entries are.  */

#define MAZH_MOST_INPUTS 32
#define MAZH_MOST_GATES 128
#define MAZH_MOST_NETS 160     /* inputs and gates */
#define MAZH_MOST_FANINS 8     /* of a gate */
#define MAZH_MOST_DELAY 60000  /* of either delay; a transport delay is at least 1 */
#define MAZH_FORMER_DELAY 63   /* the same in a file of the former edition */
#define MAZH_MOST_FILE 3204    /* bytes of the longest file that is accepted */

enum mazh_kind {
    MAZH_BUF = 0,
    MAZH_NOT = 1,
    MAZH_AND = 2,
    MAZH_NAND = 3,
    MAZH_OR = 4,
    MAZH_NOR = 5,
    MAZH_XOR = 6,
    MAZH_XNOR = 7
};

/* ---- SIZES */

/* The areas, in elements. These lengths hold every circuit, and mazh_plan, mazh_run and mazh_mark take no others. */
#define MAZH_DIRECTORY_LENGTH 320
#define MAZH_TIMES_LENGTH 2048
#define MAZH_INERTIAL_LENGTH 2048
#define MAZH_FANINS_LENGTH 16384
#define MAZH_VALUES_LENGTH 2048

#define MAZH_CONVERTER_LENGTH 4096  /* the area of mazh_newer, mazh_older and mazh_other, in bytes */

#define MAZH_LANES 64
#define MAZH_MOST_CHANGES 8         /* of an input */
#define MAZH_LAST_CHANGE 255        /* the last time at which an input may change */
#define MAZH_MOST_FRAMES 64         /* of a net */
#define MAZH_MOST_LIMIT 2048        /* frames of all nets together, and the greatest limit */
#define MAZH_RECORD_LENGTH 12       /* bytes of an expectation */
#define MAZH_MOST_RECORDS 1024      /* expectations in a list */

/* ---- ANSWERS

   Each number with its question. "(former: ..)" is what is asked of a file of the former edition, by mazh_newer and mazh_other.  */

enum mazh_answer {
    MAZH_ACCEPTED = 0,
    MAZH_BAD_FILE_LENGTH = 1,  /* Has the circuit file 4 bytes or more? */
    MAZH_BAD_INPUTS = 2,       /* Do bytes 0 and 1 hold I + 256 (former: I), for an I from 1 to 32? */
    MAZH_BAD_GATES = 3,        /* Is G from 0 to 128? */
    MAZH_BAD_PAIRS = 4,        /* Are there 4 + 4G bytes or more? */
    MAZH_BAD_RECORDS = 5,      /* Do the records fill the rest of the file, one behind the other, each of 5 (former: 3) bytes or
                                  more? */
    MAZH_BAD_KIND = 6,         /* Is the kind 0 to 7? */
    MAZH_BAD_DELAY = 7,        /* Is the transport delay 1 to 60,000 and the inertial delay 0 to 60,000 (former: 63)? */
    MAZH_BAD_FANIN_COUNT = 8,  /* Is the record's length 5 + 2M (former: 3 + 2M), for an M, the number of fan-ins, that the
                                  kind may have? */
    MAZH_BAD_FANIN = 9,        /* Is every net that the gate reads below its own? */
    MAZH_BAD_AREAS = 10,       /* Have the areas exactly the lengths that the call asks for? */
    MAZH_BAD_WORDS = 11,       /* Are there I before words, and as many after words as change times? */
    MAZH_BAD_EXPECTATION = 12, /* Has each expectation a net of the circuit, a lane below 64, from at most to, level 0 or 1? */
    MAZH_TOO_MANY_FRAMES = 13, /* Has every net at most 64 frames, and have all together at most 2,048? */
    MAZH_BAD_PARTS = 14,       /* Are the parts of times and values equally long, 1 to 64? */
    MAZH_BAD_TIMES = 15,       /* Do the times start at 0 and strictly rise? */
    MAZH_BAD_LANE = 16,        /* Is the lane below 64? */
    MAZH_BAD_CHANGES = 20,     /* Are there I change counts from 0 to 8, as many times as they add up to, from 1 to 255 and
                                  rising within each input? */
    MAZH_OVER_LIMIT = 22,      /* Is the limit from 1 to 2,048, and have all nets together at most so many frames? */
    MAZH_DELAY_TOO_LONG = 23,  /* Is no delay above 63? */
    MAZH_NO_RECORDS = 100      /* Are the bytes of the expectations a whole number of records, at most 1,024? */
};

/* ---- THE READER */

/* Reads a circuit file.

   Asks     1 to 9; 6 to 9 gate by gate.
   Answers  0 and nets = { I, G }.  */
uint32_t mazh_read(const uint8_t *file, uint64_t file_length, uint32_t nets[2]);

/* ---- WHAT THE CALLS TAKE THAT PLAN OR RUN

   file     the circuit file
   counts   a byte for each input: how often it changes, 0 to 8
   changes  the change times, those of input 0 first: of each input from 1 to 255, strictly rising
   limit    how many frames all nets together may have, 1 to 2,048
   before   a word for each input: its levels in the 64 lanes until its first change
   after    a word for each change, in the order of `changes`: the levels from then on

   and the areas. A call that accepts leaves in them, net by net, inputs first:

   directory  for each net the place of its first frame in times, inertial and values, and the number of its frames: two entries
   times      for each frame its time
   inertial   for each frame how many later ones of its net begin no more than the gate's inertial delay after it; inputs have 0
   fanins     by gate, by frame, by fan-in: which frame of the fan-in decides
   values     for each frame a word: the net's level in each lane from the frame's time on

   Frame k of a net is times[directory[2 * net] + k] and values[directory[2 * net] + k], for k below directory[2 * net + 1],
   which is at least 1. Entries behind the last one used are 0.

   totals = { frames of all nets, entries used in fanins, the last potential time of all nets }: at most 2,048, 16,384 and
   7,680,255.  */

/* Plans: works out when nets can change.

   Asks     1 to 9, 10, 20, 13, 22.
   Answers  0 and the totals.
   Areas    after 0 the plan, as above; after 13 and 22 all four are all zeros; after any other number as they were.  */
uint32_t mazh_plan(const uint8_t *file, uint64_t file_length,
                   const uint8_t *counts, uint64_t counts_length,
                   const uint32_t *changes, uint64_t changes_length,
                   uint16_t limit,
                   uint16_t *directory, uint64_t directory_length,
                   uint32_t *times, uint64_t times_length,
                   uint16_t *inertial, uint64_t inertial_length,
                   uint16_t *fanins, uint64_t fanins_length,
                   uint32_t totals[3]);

/* Runs: plans, and works out the levels of all nets in all lanes.

   Asks     1 to 9, 10, 11, 20, 13, 22.
   Answers  0 and the totals, which are those of mazh_plan.
   Areas    after 0 the plan and the values; after 13 and 22 all five are all zeros; after any other number as they were.  */
uint32_t mazh_run(const uint8_t *file, uint64_t file_length,
                  const uint8_t *counts, uint64_t counts_length,
                  const uint32_t *changes, uint64_t changes_length,
                  uint16_t limit,
                  uint16_t *directory, uint64_t directory_length,
                  uint32_t *times, uint64_t times_length,
                  uint16_t *inertial, uint64_t inertial_length,
                  uint16_t *fanins, uint64_t fanins_length,
                  uint64_t *values, uint64_t values_length,
                  const uint64_t *before, uint64_t before_length,
                  const uint64_t *after, uint64_t after_length,
                  uint32_t totals[3]);

/* Measures: answers the totals with no area lent.

   Asks     1 to 9, 20, 13, 22.
   Answers  0 and the totals, which are those of mazh_plan.  */
uint32_t mazh_size(const uint8_t *file, uint64_t file_length,
                   const uint8_t *counts, uint64_t counts_length,
                   const uint32_t *changes, uint64_t changes_length,
                   uint16_t limit,
                   uint32_t totals[3]);

/* Runs in areas that just fit. Their lengths have to be: directory 2(I + G), times, inertial and values totals[0], fanins
   totals[1], with the totals that mazh_size answers for the same file, counts, changes and limit. Without gates fanins is empty
   (rule 1).

   Asks     1 to 9, 11, 20, 13, 22, 10.
   Answers  0 and the totals, as mazh_run.
   Areas    after 0 what mazh_run leaves, without the zeros behind; after every other number as they were, 13 and 22 too.  */
uint32_t mazh_run_fitted(const uint8_t *file, uint64_t file_length,
                         const uint8_t *counts, uint64_t counts_length,
                         const uint32_t *changes, uint64_t changes_length,
                         uint16_t limit,
                         uint16_t *directory, uint64_t directory_length,
                         uint32_t *times, uint64_t times_length,
                         uint16_t *inertial, uint64_t inertial_length,
                         uint16_t *fanins, uint64_t fanins_length,
                         uint64_t *values, uint64_t values_length,
                         const uint64_t *before, uint64_t before_length,
                         const uint64_t *after, uint64_t after_length,
                         uint32_t totals[3]);

/* ---- MARKING */

/* Runs, and holds the run against a list of expectations: in this lane this net has this level at every time of this span, both
   ends included. The list is bytes, a record of 12 for each expectation, which mazh_put_expectation below writes:

     bytes 0 and 1  the net, the lowest byte first
     byte 2         the lane
     byte 3         the level, 0 or 1
     bytes 4 to 7   the first time of the span, the lowest byte first
     bytes 8 to 11  the last time of the span, the same way; a span may go beyond the last frame

   Asks     100 before anything else; then 1 to 9, 10, 11, 20, 12, 13, 22.
   Answers  0 and verdict = { 1, 0, 0 } if all are met, as those of the empty list are; or 0 and verdict = { 0, p, k }, where p
            is the position of the first expectation that is not met, from 0, and k the first frame of its net that breaks it.
   Areas    after 0, whatever the verdict, what mazh_run leaves; after 13 and 22 all five are all zeros; after any other number,
            100 among them, as they were.  */
uint32_t mazh_mark(const uint8_t *file, uint64_t file_length,
                   const uint8_t *counts, uint64_t counts_length,
                   const uint32_t *changes, uint64_t changes_length,
                   uint16_t limit,
                   uint16_t *directory, uint64_t directory_length,
                   uint32_t *times, uint64_t times_length,
                   uint16_t *inertial, uint64_t inertial_length,
                   uint16_t *fanins, uint64_t fanins_length,
                   uint64_t *values, uint64_t values_length,
                   const uint64_t *before, uint64_t before_length,
                   const uint64_t *after, uint64_t after_length,
                   const uint8_t *expectations, uint64_t expectations_length,
                   uint64_t verdict[3]);

/* ---- LOOKING AT A NET

   Both calls take one net's part of the times and its part of the values: `times + directory[2 * net]`, of length
   `directory[2 * net + 1]`, and `values + directory[2 * net]`, of the same length. They write nothing but their last array.  */

/* The level of a net in a lane at a time, which may be any, and the frame that it is in.

   Asks     14, 15, 16.
   Answers  0 and sight = { level, the time at which the frame began, the time at which the next one begins }. The last is 0 if
            the frame has no end.  */
uint32_t mazh_level(const uint32_t *times, uint64_t times_length,
                    const uint64_t *values, uint64_t values_length,
                    uint8_t lane, uint32_t time,
                    uint32_t sight[3]);

/* How often a net changes in a lane.

   Asks     14, 15, 16.
   Answers  0 and changes = { how many frames from 1 on have another level than the frame before }, at most 63.  */
uint32_t mazh_count(const uint32_t *times, uint64_t times_length,
                    const uint64_t *values, uint64_t values_length,
                    uint8_t lane,
                    uint32_t changes[1]);

/* ---- CIRCUIT FILES OF THE FORMER EDITION

   There bytes 0 and 1 hold I itself, a delay is one byte, at most 63, and a record has 3 + 2M bytes. Every other call refuses
   such a file with 2. The converters write the same circuit in the other edition, into an area of 4,096 bytes. There and back
   is the same file, byte for byte.

   Areas    after 0 the file, and zeros behind it; after any other number as it was.  */

/* From the former edition to the present one.

   Asks     1 to 9 of the former edition, 10.
   Answers  0 and length = { the length of the file written }.  */
uint32_t mazh_newer(const uint8_t *file, uint64_t file_length, uint8_t *area, uint64_t area_length, uint32_t length[1]);

/* From the present edition to the former one.

   Asks     1 to 9, 10, 23.
   Answers  0 and length = { the length of the file written }.  */
uint32_t mazh_older(const uint8_t *file, uint64_t file_length, uint8_t *area, uint64_t area_length, uint32_t length[1]);

/* From whichever edition to the other: mazh_older where bytes 0 and 1 hold 256 or more, else mazh_newer. Bytes that the file
   does not have count as 0.  */
uint32_t mazh_other(const uint8_t *file, uint64_t file_length, uint8_t *area, uint64_t area_length, uint32_t length[1]);

/* ---- HELPERS

   They check nothing. `net` has to be a net of the circuit whose accepted run, or plan, is in the areas.  */

/* How many frames a net has: the length of its parts. */
static inline uint64_t mazh_frames_of(const uint16_t *directory, uint16_t net)
{
    return directory[2u * net + 1u];
}

/* A net's part of the times. */
static inline const uint32_t *mazh_times_of(const uint16_t *directory, const uint32_t *times, uint16_t net)
{
    return times + directory[2u * net];
}

/* A net's part of the values. */
static inline const uint64_t *mazh_values_of(const uint16_t *directory, const uint64_t *values, uint16_t net)
{
    return values + directory[2u * net];
}

/* Writes an expectation into the 12 bytes of its record. */
static inline void mazh_put_expectation(uint8_t record[MAZH_RECORD_LENGTH],
                                        uint16_t net, uint8_t lane, uint8_t level, uint32_t from, uint32_t to)
{
    int k;
    record[0] = (uint8_t)(net & 255u);
    record[1] = (uint8_t)(net >> 8);
    record[2] = lane;
    record[3] = level;
    for (k = 0; k < 4; k++) {
        record[4 + k] = (uint8_t)(from >> (8 * k) & 255u);
        record[8 + k] = (uint8_t)(to >> (8 * k) & 255u);
    }
}

#ifdef __cplusplus
}
#endif

#endif
