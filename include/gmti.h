/* GMTI packets (STANAG 4607, Editions 1 and 3): one packet to one sheet and back.
 *
 * Link libgmti.a, which `rt staticlib gmti` proves and builds for x86-64. docs/MANUAL.md explains the sheet and the refusals, and lists the
 * systems of radar modes.
 *
 * gmti_read and gmti_write take any bytes. What the caller must see to:
 * - A pointer leads to as many bytes as its length says. It may be null only where its length is 0.
 * - `answer` leads to seven numbers, `system` to one.
 * - No two of the runs of bytes and the answer overlap.
 * The library keeps no pointer and no state, so threads may call side by side.
 */
#ifndef GMTI_H
#define GMTI_H

#include <stddef.h>
#include <stdint.h>

#ifdef __cplusplus
extern "C" {
#endif

/* No packet has more bytes than this. */
#define GMTI_LONGEST_PACKET 65536

/* No packet has a sheet of more bytes than this, which is what gmti_sheet_bound gives for GMTI_LONGEST_PACKET. It is for memory that is
 * set aside when a program is compiled. */
#define GMTI_LONGEST_SHEET (33 + 45 * (GMTI_LONGEST_PACKET - 32) / 4)

/* The places of an answer. Accepted: the first three are 0. Refused: the last four are 0. */
enum {
    GMTI_NUMBER = 0,   /* the number of the refusal, or 0 where the input is accepted */
    GMTI_SEGMENT = 1,  /* the segment that it is about, from 1; 0 for the call, the header, the end and the writer */
    GMTI_FIELD = 2,    /* the field that it names, or 0 */
    GMTI_SEGMENTS = 3, /* how many segments the packet has */
    GMTI_DWELLS = 4,   /* how many dwells: different pairs of D2 and D3 in the segments of type 2; one split over several counts once */
    GMTI_TARGETS = 5,  /* how many targets the segments of type 2 have together */
    GMTI_LENGTH = 6    /* the length of the sheet; from gmti_write, of the packet */
};

/* The numbers of refusals, in the order of the manual's table, which says what to do about each. */
enum {
    GMTI_REFUSED_EDITION = 1,           /* the edition asked for is neither 1 nor 3 */
    GMTI_REFUSED_LENGTH = 2,            /* the packet is shorter than 32 bytes or longer than GMTI_LONGEST_PACKET */
    GMTI_REFUSED_VERSION = 3,           /* P1 is not the character 1 or 3 and a digit */
    GMTI_REFUSED_PACKET_SIZE = 4,       /* P2 is not the packet's length */
    GMTI_REFUSED_HEADER_TEXT = 5,       /* P3, P5 or P8 has a character that is no text */
    GMTI_REFUSED_BYTES_LEFT = 6,        /* 1 to 4 bytes are left behind the last segment */
    GMTI_REFUSED_SEGMENT_TYPE = 7,      /* the segment's type is not known */
    GMTI_REFUSED_SEGMENT_SIZE = 8,      /* S2 is under 5 or past the packet's end */
    GMTI_REFUSED_SIZE_FOR_TYPE = 9,     /* S2 does not fit the type */
    GMTI_REFUSED_SEGMENT_TEXT = 10,     /* a text field of the segment has a character that is no text */
    GMTI_REFUSED_DWELL_MASK = 11,       /* the dwell's mask is not allowed */
    GMTI_REFUSED_DWELL_SIZE = 12,       /* S2 is not what the dwell's mask and D5 call for */
    GMTI_REFUSED_VALUE = 13,            /* a value is out of range */
    GMTI_REFUSED_LATITUDE = 14,         /* a target's latitude is beyond a pole */
    GMTI_REFUSED_NEW_IN_EDITION_3 = 15, /* the Edition 1 reading: the packet holds something new in Edition 3 */
    GMTI_REFUSED_SHEET_ROOM = 16,       /* the sheet does not fit the lent bytes */
    GMTI_REFUSED_RECORDS = 17,          /* the sheet is no run of records, the first and no other of kind 1 */
    GMTI_REFUSED_FOLLOWERS = 18,        /* the targets, pieces or scatterers are not those that the record before them calls for */
    GMTI_REFUSED_NO_PACKET = 19,        /* no packet reads to this sheet */
    GMTI_REFUSED_PACKET_ROOM = 20,      /* the packet does not fit the lent bytes */
    GMTI_REFUSED_HRR_MASK = 21,         /* the HRR segment's mask is not allowed */
    GMTI_REFUSED_HRR_SIZE = 22,         /* H25, H26 or S2 is not what the HRR segment calls for */
    GMTI_REFUSED_MODE_EDITION = 23      /* gmti_mode_system: the edition asked for is neither 1 nor 3 */
};

/* The kinds of records. The first byte of a record is its kind. */
enum {
    GMTI_KIND_HEADER = 1,     GMTI_KIND_MISSION = 2,    GMTI_KIND_DWELL = 3,      GMTI_KIND_TARGET = 4,
    GMTI_KIND_TEXT = 5,       GMTI_KIND_PIECE = 6,      GMTI_KIND_OPAQUE = 7,     GMTI_KIND_JOB = 8,
    GMTI_KIND_TEST = 9,       GMTI_KIND_LOCATION = 10,  GMTI_KIND_HRR = 11,       GMTI_KIND_SCATTERER = 12
};

/* How many bytes a record of each kind has, its kind byte included: so far behind it the next record begins. */
enum {
    GMTI_LENGTH_OF_HEADER = 33,   GMTI_LENGTH_OF_MISSION = 40,  GMTI_LENGTH_OF_DWELL = 88,    GMTI_LENGTH_OF_TARGET = 45,
    GMTI_LENGTH_OF_TEXT = 25,     GMTI_LENGTH_OF_PIECE = 34,    GMTI_LENGTH_OF_OPAQUE = 6,    GMTI_LENGTH_OF_JOB = 70,
    GMTI_LENGTH_OF_TEST = 15,     GMTI_LENGTH_OF_LOCATION = 24, GMTI_LENGTH_OF_HRR = 67,      GMTI_LENGTH_OF_SCATTERER = 9
};

/* Where each field stands in the record of its kind, whose kind byte is at 0. The manual has widths and forms; numbers stand highest byte
 * first. The mask says whether a field of a dwell, target, HRR record or scatterer has a value. */
enum {
    /* Header: P1 to P10. */
    GMTI_AT_P1 = 1,   GMTI_AT_P2 = 3,   GMTI_AT_P3 = 7,   GMTI_AT_P4 = 9,   GMTI_AT_P5 = 10,
    GMTI_AT_P6 = 12,  GMTI_AT_P7 = 14,  GMTI_AT_P8 = 15,  GMTI_AT_P9 = 25,  GMTI_AT_P10 = 29,

    /* Mission: M1 to M7. */
    GMTI_AT_M1 = 1,  GMTI_AT_M2 = 13, GMTI_AT_M3 = 25, GMTI_AT_M4 = 26, GMTI_AT_M5 = 36,
    GMTI_AT_M6 = 38, GMTI_AT_M7 = 39,

    /* Dwell: D1, the mask, to D31, and the mark that tells whether D27 is shown. */
    GMTI_AT_D1 = 1,   GMTI_AT_D2 = 9,   GMTI_AT_D3 = 11,  GMTI_AT_D4 = 13,  GMTI_AT_D5 = 14,
    GMTI_AT_D6 = 16,  GMTI_AT_D7 = 20,  GMTI_AT_D8 = 24,  GMTI_AT_D9 = 28,  GMTI_AT_D10 = 32,
    GMTI_AT_D11 = 36, GMTI_AT_D12 = 40, GMTI_AT_D13 = 44, GMTI_AT_D14 = 48, GMTI_AT_D15 = 50,
    GMTI_AT_D16 = 52, GMTI_AT_D17 = 56, GMTI_AT_D18 = 57, GMTI_AT_D19 = 58, GMTI_AT_D20 = 60,
    GMTI_AT_D21 = 62, GMTI_AT_D22 = 64, GMTI_AT_D23 = 66, GMTI_AT_D24 = 68, GMTI_AT_D25 = 72,
    GMTI_AT_D26 = 76, GMTI_AT_D27 = 78, GMTI_AT_D28 = 80, GMTI_AT_D29 = 82, GMTI_AT_D30 = 84,
    GMTI_AT_D31 = 86,
    GMTI_AT_MARK_OF_D27 = 87,

    /* Target: D32.1 to D32.18, and the position in microdegrees. */
    GMTI_AT_D32_1 = 1,   GMTI_AT_D32_2 = 3,   GMTI_AT_D32_3 = 7,   GMTI_AT_D32_4 = 11,  GMTI_AT_D32_5 = 13,
    GMTI_AT_D32_6 = 15,  GMTI_AT_D32_7 = 17,  GMTI_AT_D32_8 = 19,  GMTI_AT_D32_9 = 21,  GMTI_AT_D32_10 = 22,
    GMTI_AT_D32_11 = 23, GMTI_AT_D32_12 = 24, GMTI_AT_D32_13 = 26, GMTI_AT_D32_14 = 28, GMTI_AT_D32_15 = 29,
    GMTI_AT_D32_16 = 31, GMTI_AT_D32_17 = 32, GMTI_AT_D32_18 = 36,
    GMTI_AT_TARGET_LATITUDE = 37,  GMTI_AT_TARGET_LONGITUDE = 41,

    /* Text: F1, F2, and the length of F3, whose pieces follow. */
    GMTI_AT_F1 = 1,  GMTI_AT_F2 = 11,
    GMTI_AT_TEXT_LENGTH = 21,

    /* Piece: how many bytes count, and the bytes. */
    GMTI_AT_PIECE_COUNT = 1, GMTI_AT_PIECE_BYTES = 2,

    /* Opaque: the segment's type, and the length of its body, whose pieces follow. */
    GMTI_AT_OPAQUE_TYPE = 1,   GMTI_AT_OPAQUE_LENGTH = 2,

    /* Job: J1 to J28, and the mark that tells whether J26 is shown. */
    GMTI_AT_J1 = 1,   GMTI_AT_J2 = 5,   GMTI_AT_J3 = 6,   GMTI_AT_J4 = 12,  GMTI_AT_J5 = 13,
    GMTI_AT_J6 = 14,  GMTI_AT_J7 = 18,  GMTI_AT_J8 = 22,  GMTI_AT_J9 = 26,  GMTI_AT_J10 = 30,
    GMTI_AT_J11 = 34, GMTI_AT_J12 = 38, GMTI_AT_J13 = 42, GMTI_AT_J14 = 46, GMTI_AT_J15 = 47,
    GMTI_AT_J16 = 49, GMTI_AT_J17 = 51, GMTI_AT_J18 = 53, GMTI_AT_J19 = 55, GMTI_AT_J20 = 56,
    GMTI_AT_J21 = 58, GMTI_AT_J22 = 60, GMTI_AT_J23 = 62, GMTI_AT_J24 = 64, GMTI_AT_J25 = 65,
    GMTI_AT_J26 = 66, GMTI_AT_J27 = 67, GMTI_AT_J28 = 68,
    GMTI_AT_MARK_OF_J26 = 69,

    /* Test: T1 to T6. */
    GMTI_AT_T1 = 1,  GMTI_AT_T2 = 5,  GMTI_AT_T3 = 7,  GMTI_AT_T4 = 9,  GMTI_AT_T5 = 13,
    GMTI_AT_T6 = 14,

    /* Location: L1 to L7. */
    GMTI_AT_L1 = 1,  GMTI_AT_L2 = 5,  GMTI_AT_L3 = 9,  GMTI_AT_L4 = 13, GMTI_AT_L5 = 17,
    GMTI_AT_L6 = 19, GMTI_AT_L7 = 23,

    /* HRR: H1, the mask, to H31. */
    GMTI_AT_H1 = 1,   GMTI_AT_H2 = 6,   GMTI_AT_H3 = 8,   GMTI_AT_H4 = 10,  GMTI_AT_H5 = 11,
    GMTI_AT_H6 = 13,  GMTI_AT_H7 = 15,  GMTI_AT_H8 = 17,  GMTI_AT_H9 = 19,  GMTI_AT_H10 = 20,
    GMTI_AT_H11 = 21, GMTI_AT_H12 = 23, GMTI_AT_H13 = 25, GMTI_AT_H14 = 29, GMTI_AT_H15 = 33,
    GMTI_AT_H16 = 37, GMTI_AT_H17 = 38, GMTI_AT_H18 = 39, GMTI_AT_H19 = 40, GMTI_AT_H20 = 42,
    GMTI_AT_H21 = 43, GMTI_AT_H22 = 45, GMTI_AT_H23 = 49, GMTI_AT_H24 = 50, GMTI_AT_H25 = 51,
    GMTI_AT_H26 = 52, GMTI_AT_H27 = 53, GMTI_AT_H28 = 54, GMTI_AT_H29 = 58, GMTI_AT_H30 = 59,
    GMTI_AT_H31 = 63,

    /* Scatterer: H32.1 to H32.4. */
    GMTI_AT_H32_1 = 1, GMTI_AT_H32_2 = 3, GMTI_AT_H32_3 = 5, GMTI_AT_H32_4 = 7
};

/* Reads one packet as Edition 1 or 3 and sets it out on the lent sheet. An accepted packet fills the first answer[GMTI_LENGTH]
 * bytes of the sheet and leaves the rest as it was; a refused one leaves the whole sheet as it was. */
void gmti_read(uint32_t edition, const uint8_t *packet, size_t packet_length, uint8_t *sheet, size_t sheet_length,
               uint32_t answer[7]);

/* Writes the packet that reads, as Edition 3, to just this sheet. An accepted sheet fills the first answer[GMTI_LENGTH] bytes of the
 * lent packet and leaves the rest as it was; a refused one leaves the whole packet as it was. It takes some 73 kB of stack. */
void gmti_write(const uint8_t *sheet, size_t sheet_length, uint8_t *packet, size_t packet_length, uint32_t answer[7]);

/* How many bytes to lend for the sheet of a packet of packet_length bytes: lent so many, gmti_read does not refuse it with
 * GMTI_REFUSED_SHEET_ROOM, whatever its bytes are. It is 33 + 45 * (packet_length - 32) / 4, rounded down; 0 for a length under 32 or above
 * GMTI_LONGEST_PACKET, which no packet has. */
size_t gmti_sheet_bound(size_t packet_length);

/* Stores the number of the system to which an edition's table 2-7.2 gives a radar mode, a value of J14: 1 to 12, or 0 where it is given to
 * none. Returns 0; for an edition that is neither 1 nor 3 it stores 0 and returns GMTI_REFUSED_MODE_EDITION,
 * its only refusal. */
uint32_t gmti_mode_system(uint32_t edition, uint8_t mode, uint32_t *system);

#ifdef __cplusplus
}
#endif

#endif
