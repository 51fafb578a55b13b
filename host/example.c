/* Marks the pulse former of examples/first.circuit: net 2 is to be 1 at times 2 and 3, else 0.
   gcc -O2 -Ihost/include host/example.c target/staticlib/libexport.a -o example */
#include <stdio.h>
#include "mazhorukku.h"

static uint16_t directory[MAZH_DIRECTORY_LENGTH], inertial[MAZH_INERTIAL_LENGTH], fanins[MAZH_FANINS_LENGTH];
static uint32_t times[MAZH_TIMES_LENGTH];
static uint64_t values[MAZH_VALUES_LENGTH];

int main(void)
{
    const uint8_t file[] = {1, 1, 2, 0, 12, 0, 7, 0, 19, 0, 9, 0, /* 1 input (257), 2 gates, and where their records are */
                            MAZH_NOT, 2, 0, 0, 0, 0, 0,           /* net 1: delay 2, inertial 0, reads net 0 */
                            MAZH_AND, 1, 0, 1, 0, 0, 0, 1, 0};    /* net 2: delay 1, inertial 1, reads nets 0 and 1 */
    const uint8_t counts[] = {1};                                 /* net 0 changes once, */
    const uint32_t changes[] = {1};                               /* at time 1, */
    const uint64_t before[] = {0}, after[] = {1};                 /* in lane 0 from 0 to 1 */
    uint8_t expected[3 * MAZH_RECORD_LENGTH];
    uint64_t verdict[3];

    mazh_put_expectation(expected, 2, 0, 0, 0, 1);           /* net 2, lane 0: level 0 from time 0 to 1, */
    mazh_put_expectation(expected + 12, 2, 0, 1, 2, 3);      /* level 1 from 2 to 3, */
    mazh_put_expectation(expected + 24, 2, 0, 0, 4, 100000); /* level 0 from 4 on */
    uint32_t answer = mazh_mark(file, sizeof file, counts, 1, changes, 1, MAZH_MOST_LIMIT, directory, MAZH_DIRECTORY_LENGTH,
                                times, MAZH_TIMES_LENGTH, inertial, MAZH_INERTIAL_LENGTH, fanins, MAZH_FANINS_LENGTH,
                                values, MAZH_VALUES_LENGTH, before, 1, after, 1, expected, sizeof expected, verdict);
    if (answer != MAZH_ACCEPTED)
        printf("refused %d\n", (int)answer);
    else if (verdict[0] == 1)
        printf("passed\n");
    else
        printf("failed: expectation %d, frame %d\n", (int)verdict[1], (int)verdict[2]);
    return 0;
}
