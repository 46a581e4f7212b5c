/*
 * Books for tests, in hex.
 */
#ifndef BOOKS_H
#define BOOKS_H

/* 01's books. A: 0 by letter 0 to 1, 1 by 1 to 2, 2 by 2 to 1; 1 accepts. B: 0 by 0 or 1 to 1, 1 by 2 to 2; 2 accepts. C: one
   accepting state, loops on 0 and 1. */
#define BOOK_A "18 00 01 00 03 03 00 02 00 00 00 00 00 00 00 01 FF FF FF 02 FF FF FF 01"
#define BOOK_B "18 00 01 00 03 03 00 04 00 00 00 00 00 00 00 01 01 FF FF FF 02 FF FF FF"
#define BOOK_C "11 00 01 00 01 02 00 01 00 00 00 00 00 00 00 00 00"

/* The codes of 0, 5, 10, .. zeros: round five states by letter 0; start 0 accepts. */
#define RING "14 00 01 00 05 01 00 01 00 00 00 00 00 00 00 01 02 03 04 00"

/* The codes 0 1 0 1 .. of even length, the empty one too: 0 by 0 to 1, 1 by 1 to 0; start 0 accepts. */
#define TURNS "13 00 01 00 02 02 00 01 00 00 00 00 00 00 00 01 FF FF 00"

/* The codes 0, 0 1, 0 1 1, ..: 0 by 0 to 1, 1 by 1 to 1; 1 accepts. */
#define LOOP "13 00 01 00 02 02 00 02 00 00 00 00 00 00 00 01 FF FF 01"

/* One code of each length: 0, 1 1, 0 0 1, 1 1 0 1, ..: 0 by 0 to 1 and by 1 to 2, 1 by 0 to 2, 2 by 1 to 1; 1 accepts. */
#define FORK "15 00 01 00 03 02 00 02 00 00 00 00 00 00 00 01 02 02 FF FF 01"

/* The codes of zeros, and those with a 1 behind them: 0 by 0 to 0 and by 1 to 1; both accept. */
#define GAP "13 00 01 00 02 02 00 03 00 00 00 00 00 00 00 00 01 FF FF"

/* The codes of 1, 3, 5, .. zeros: 0 by 0 to 18, 18 by 0 to 0; 18 accepts. From byte 15 on, its moves are the mask {0} 0-2. */
#define OVERLAP "22 00 01 00 13 01 00 00 00 04 00 00 00 00 00 12 00 02 00 01 00 01 00 00 00 00 00 00 00 00 00 02 00 00"
#define OVERLAP_MASK 15

/* The same codes. From byte 16 on it has a struct fekhvina_block, {0} 0-2. It has 40 bytes, so that the struct is aligned where
   the book begins behind a page or ends in front of one. */
#define OVERLAP_LIST "28 00 01 00 19 01 00 00 00 04 00 00 00 00 00 12 "    \
    "01 00 00 00 00 00 00 00 00 00 02 00 01 02 03 04 FF 00 FF FF FF FF FF FF"
#define OVERLAP_BLOCK 16

/* Heights, a sign and four digits, from -0250 to +1200; there is no -0000. Letters 0 to 11 are + - 0 1 .. 9. */
#define HEIGHTS "B7 00 01 00 0E 0C 00 00 01 00 00 00 00 00 00 "       \
    "01 09 FF FF FF FF FF FF FF FF FF FF " /*  0: the start */            \
    "FF FF 05 02 FF FF FF FF FF FF FF FF " /*  1: + */                    \
    "FF FF 06 06 03 FF FF FF FF FF FF FF " /*  2: +1 */                   \
    "FF FF 04 FF FF FF FF FF FF FF FF FF " /*  3: +12 */                  \
    "FF FF 08 FF FF FF FF FF FF FF FF FF " /*  4: a last digit of 0 */    \
    "FF FF 06 06 06 06 06 06 06 06 06 06 " /*  5: any three digits */     \
    "FF FF 07 07 07 07 07 07 07 07 07 07 " /*  6: any two */              \
    "FF FF 08 08 08 08 08 08 08 08 08 08 " /*  7: any one */              \
    "FF FF FF FF FF FF FF FF FF FF FF FF " /*  8: the end, accepting */   \
    "FF FF 0A FF FF FF FF FF FF FF FF FF " /*  9: - */                    \
    "FF FF 0B 06 0C FF FF FF FF FF FF FF " /* 10: -0 */                   \
    "FF FF 0D 07 07 07 07 07 07 07 07 07 " /* 11: -00 */                  \
    "FF FF 07 07 07 07 07 04 FF FF FF FF " /* 12: -02 */                  \
    "FF FF FF 08 08 08 08 08 08 08 08 08"  /* 13: -000 */

#endif
