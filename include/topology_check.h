/* The strict check of a topology file for a host in C. */
#ifndef TOPOLOGY_CHECK_H
#define TOPOLOGY_CHECK_H

#include <stddef.h>
#include <stdint.h>

/* The answer for more than 65,536 bytes. The bytes are not looked at. */
#define TOPOLOGY_TOO_LONG 255u

/* The faults of an image. A fault's answer is 256 * place + number, where place is the byte at
   which it is reported, counted from 0. */
#define TOPOLOGY_ENDS_EARLY 10u      /* the bytes end too early; place: their length */
#define TOPOLOGY_NOT_SHORTEST 11u    /* a number has a shorter form; place: its first byte */
#define TOPOLOGY_TOO_WIDE 12u        /* a number has more than 32 bits; place: its first byte */
#define TOPOLOGY_WRONG_START 13u     /* the first two bytes are not 43 4D; place: 0 */
#define TOPOLOGY_OTHER_SIGN 14u      /* the sign is not that of the cabling layout */
#define TOPOLOGY_WRONG_ROOTS 15u     /* the root count is above 64, or the last root is nil */
#define TOPOLOGY_WRONG_HEADER 16u    /* the header of an object is not legal */
#define TOPOLOGY_WRONG_REFERENCE 17u /* a reference names no object, or skips a number */
#define TOPOLOGY_NOT_REFERRED_TO 18u /* an object is due that nothing has referred to */
#define TOPOLOGY_LEFT_OVER 19u       /* bytes follow the last object; place: the first of them */

/* Checks an image of the cabling layout. Answers 0 if it is accepted, TOPOLOGY_TOO_LONG, or
   256 * place + number for its first fault in reading order. The bytes are only read. */
uint64_t topology_check(const uint8_t *bytes, size_t len);

/* The number and the place in the answer for a fault. */
static inline unsigned topology_fault(uint64_t answer) { return (unsigned)(answer % 256); }
static inline uint64_t topology_place(uint64_t answer) { return answer / 256; }

#endif
