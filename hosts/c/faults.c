/* Records that are refused: see faults.h. */
#include "faults.h"

#include <stddef.h>

/* The set {0}, in a block. */
#define SET "01 00 00 00 00 00 00 00 "

const struct fault mask_faults[] = {
    {"no bytes", 1, ""},
    {"one byte", 1, "01"},
    {"three bytes", 1, "03 00 02"},
    {"a length field of one less", 1, "11 00 02 00 01 00 " SET "00 00 02 00"},
    {"a length field of one more", 1, "13 00 02 00 01 00 " SET "00 00 02 00"},
    {"a length field that is right in its low byte", 1, "12 01 02 00 01 00 " SET "00 00 02 00"},
    {"a length field the other way round", 1, "00 12 02 00 01 00 " SET "00 00 02 00"},
    {"a kind of 1", 2, "12 00 01 00 01 00 " SET "00 00 02 00"},
    {"a kind of 258", 2, "12 00 02 01 01 00 " SET "00 00 02 00"},
    {"a length of 4", 3, "04 00 02 00"},
    {"a length of 5", 3, "05 00 02 00 00"},
    {"1,025 blocks", 4, "12 00 02 00 01 04 " SET "00 00 02 00"},
    {"65,535 blocks", 4, "06 00 02 00 FF FF"},
    {"a block fewer than its bytes", 5, "12 00 02 00 00 00 " SET "00 00 02 00"},
    {"a block more than its bytes", 5, "12 00 02 00 02 00 " SET "00 00 02 00"},
    {"a byte too many", 5, "13 00 02 00 01 00 " SET "00 00 02 00 00"},
    {"a byte too few", 5, "11 00 02 00 01 00 " SET "00 00 02"},
    {"l above u", 7, "12 00 02 00 01 00 " SET "03 00 02 00"},
    {"l above u in the high byte", 7, "12 00 02 00 01 00 " SET "00 01 02 00"},
    {"l above u in the last block", 7, "1E 00 02 00 02 00 " SET "00 00 02 00 " SET "01 00 00 00"},
    {"u of 1,025", 8, "12 00 02 00 01 00 " SET "00 00 01 04"},
    {"uppers that sum to 1,025", 8, "1E 00 02 00 02 00 " SET "00 00 00 04 " SET "00 00 01 00"},
    {"uppers that sum to 65,536", 8, "1E 00 02 00 02 00 " SET "00 00 FF FF " SET "00 00 01 00"},
    /* two faults: the first check decides */
    {"length field and kind", 1, "13 00 01 00 01 00 " SET "00 00 02 00"},
    {"kind and length", 2, "04 00 01 00"},
    {"blocks and length", 4, "13 00 02 00 01 04 " SET "00 00 02 00 00"},
    {"length and bounds", 5, "12 00 02 00 02 00 " SET "03 00 02 00"},
    {"a sum in the first block, bounds in the last", 7, "1E 00 02 00 02 00 " SET "00 00 01 04 " SET "01 00 00 00"},
    {NULL, 0, NULL},
};

const struct fault book_faults[] = {
    {"no bytes", 1, ""},
    {"three bytes", 1, "03 00 01"},
    {"a length field of one less", 1, "10 00 01 00 01 02 00 01 00 00 00 00 00 00 00 00 00"},
    {"a length field of one more", 1, "12 00 01 00 01 02 00 01 00 00 00 00 00 00 00 00 00"},
    {"a kind of 2", 2, "11 00 02 00 01 02 00 01 00 00 00 00 00 00 00 00 00"},
    {"a kind of 257", 2, "11 00 01 01 01 02 00 01 00 00 00 00 00 00 00 00 00"},
    {"a length of 14", 3, "0E 00 01 00 01 02 00 01 00 00 00 00 00 00"},
    {"no states", 4, "0F 00 01 00 00 02 00 00 00 00 00 00 00 00 00"},
    {"64 states", 4, "11 00 01 00 40 02 00 01 00 00 00 00 00 00 00 00 00"},
    {"no letters", 4, "0F 00 01 00 01 00 00 01 00 00 00 00 00 00 00"},
    {"65 letters", 4, "11 00 01 00 01 41 00 01 00 00 00 00 00 00 00 00 00"},
    {"a move too many", 5, "12 00 01 00 01 02 00 01 00 00 00 00 00 00 00 00 00 00"},
    {"a move too few", 5, "10 00 01 00 01 02 00 01 00 00 00 00 00 00 00 00"},
    {"a start that is no state", 6, "11 00 01 00 01 02 01 01 00 00 00 00 00 00 00 00 00"},
    {"an accepting bit that is no state", 6, "11 00 01 00 01 02 00 02 00 00 00 00 00 00 00 00 00"},
    {"accepting bit 63", 6, "11 00 01 00 01 02 00 01 00 00 00 00 00 00 80 00 00"},
    {"a move that is no state", 6, "11 00 01 00 01 02 00 01 00 00 00 00 00 00 00 00 01"},
    {"a move of 254", 6, "11 00 01 00 01 02 00 01 00 00 00 00 00 00 00 FE 00"},
    /* two faults: the first check decides */
    {"length field and kind", 1, "12 00 02 00 01 02 00 01 00 00 00 00 00 00 00 00 00"},
    {"kind and length", 2, "04 00 02 00"},
    {"states and length", 4, "12 00 01 00 00 02 00 01 00 00 00 00 00 00 00 00 00 00"},
    {"length and start", 5, "12 00 01 00 01 02 01 01 00 00 00 00 00 00 00 00 00 00"},
    {NULL, 0, NULL},
};
