/*
 * Damvurit for C: a practice centre for payment clerks. Twelve pupils share a room, each in a seat; a pupil submits pacs.008, camt.050,
 * pacs.028 and pacs.002 messages and gets the answer of the payment system as a slip of six bytes.
 *
 * Link libdamvurit.a (x86-64 Linux); of the C library it uses memcpy and memset alone. What each function answers and leaves is proved: its
 * contract stands with its name in crates/damvurit/src/lib.rt, and holds for every input. What this page asks of memory and threads is the
 * caller's part.
 *
 * Memory. The caller owns all of it. Nothing is allocated and nothing is kept: when a call has returned, it knows no pointer any more. A pointer
 * reaches as many elements as the length after it says, and is aligned for them. Where the length is 0 nothing is read or written through the
 * pointer, and it may be null. `out` has no length: it reaches seven or six numbers and is never null. Buffers that one call is lent do not overlap,
 * unless both are const. A call takes some 16 KB of stack (measured, not proved).
 *
 * Threads. There is no state but what is lent, so calls on different rooms may run at the same time. While a call runs, nothing else changes what it
 * was lent, and nothing else looks at what it may change.
 *
 * Result. Every call but damvurit_room_size gives number + 256 * detail. The number is 0 where the call is done, else that of the first refusal
 * that applies, in the order 1 to 6, 11, 9, 10, 7, 8, 12. A refused call leaves the room and the slip as they came and writes zeros into `out`.
 */
#ifndef DAMVURIT_H
#define DAMVURIT_H

#include <stddef.h>
#include <stdint.h>

#ifdef __cplusplus
extern "C" {
#endif

/* How many numbers a room has, to declare one; damvurit_room_size() is the authority. A room of another length is unfit. */
#define DAMVURIT_ROOM_SIZE 11652

/* How many seats a room has: 0 to 11. */
#define DAMVURIT_SEATS 12

/* The bytes of a slip that is written. Mark books hold slips of the five-byte form, for seats 0 to 7, so both lengths are read. */
#define DAMVURIT_SLIP_SIZE 6
#define DAMVURIT_FIVE_BYTE_SLIP_SIZE 5

/* The two parts of a result. */
#define DAMVURIT_NUMBER(result) ((result) % 256)
#define DAMVURIT_DETAIL(result) ((result) / 256)

/* The numbers, each with its detail where it has one. */
enum damvurit_number {
    DAMVURIT_DONE = 0,                 /* for opening, the detail is the opening number; else 0 */
    DAMVURIT_ROOM_UNFIT = 1,           /* the room's numbers are none that calls leave; for laying out, a wrong length */
    DAMVURIT_DIRECTORY_UNFIT = 2,
    DAMVURIT_NO_TICKET = 3,            /* a seat above 11; but for opening, a closed seat or another opening number */
    DAMVURIT_ALREADY_OPEN = 4,
    DAMVURIT_NO_OPENING_LEFT = 5,      /* the seat was opened 65,535 times */
    DAMVURIT_BAD_NUMBER = 6,           /* a sum, block, limit, date, sender, account number or owner; a wrong count of sums */
    DAMVURIT_ILL_FORMED = 7,           /* the sheet; detail: the place, at most 8192 */
    DAMVURIT_BAD_FIELD = 8,            /* detail: the field, 1 to 14, or 0 where the message is unknown */
    DAMVURIT_JOURNAL_FULL = 9,         /* 24 steps */
    DAMVURIT_NOTHING_TO_TAKE_BACK = 10,
    DAMVURIT_NO_SLIP = 11,             /* a buffer under six bytes; fields or bytes that are no slip */
    DAMVURIT_NOT_TAKEN = 12            /* the sender failed check 1 or 2; detail: the check */
};

/*
 * A directory is four numbers a record, in ascending order of code, 1 to 16 records: the code, 0 to 999999; instant, 0 or 1; the kind, 0 owner,
 * 1 direct branch, 2 indirect branch, 3 provider; the code of the owner that it names, 0 for an owner. Its length counts numbers, so it is four
 * times the records. Another form is an unfit directory.
 */

/* How many numbers a room has: the length that a room must be lent with. */
uint64_t damvurit_room_size(void);

/* Lays out a room: all of it becomes zero, whatever it held. Only the length n is looked at. Answers 0 or 1. */
uint64_t damvurit_lay_out(uint64_t *room, size_t n);

/*
 * Opens a seat, 0 to 11. The sums, in kopecks, come record by record, account 1 then account 2, so that k is twice the records; 0 to 10^15 for an
 * owner, 0 for others. An account opens with an LPO equal to its sum, or none where that is 0; LTK is 0 and nothing is blocked. Answers 0 with the
 * opening number, 1 to 65,535, or 1 to 6. Seat and opening number are the ticket for all other calls.
 */
uint64_t damvurit_open(uint64_t *room, size_t n, const uint64_t *dir, size_t d, uint64_t seat, const uint64_t *sums, size_t k);

/* Closes a seat. Answers 0, 1 or 3. */
uint64_t damvurit_close(uint64_t *room, size_t n, uint64_t seat, uint64_t opening);

/*
 * Sets an account, 1 or 2, of an owner, as one step: block outgoing and block incoming, 0 or 1; LTK, 0 to 10^15; LPO, 0 for none and n + 1 for the
 * limit n, 0 to 10^15. Answers 0, 1, 2, 3, 6 or 9.
 */
uint64_t damvurit_set(uint64_t *room, size_t n, const uint64_t *dir, size_t d, uint64_t seat, uint64_t opening, uint64_t owner, uint64_t account,
                      uint64_t block_out, uint64_t block_in, uint64_t ltk, uint64_t lpo);

/*
 * Submits a sheet of m bytes for a sender on a date (yyyymmdd, 2000 to 2099). A message that is taken is one step, carried out or not, and its slip
 * stands in the first six bytes of the slip buffer, which has l bytes, six or more; the bytes after them stay. Answers 0, 1, 2, 3, 6, 11, 9, 7 with
 * the place, 8 with the field or 12 with the check.
 *
 * A pacs.008 that fails no check waits, and moves no money. A pacs.002 of the bank that its InstdAgt names settles or rejects it, with a step and a
 * slip of its own; the slip of the pacs.008 stays what it was. The money checks run then, on the accounts and the amount that the pacs.008 was sent
 * with, whichever directory comes with the pacs.002.
 */
uint64_t damvurit_submit(uint64_t *room, size_t n, const uint64_t *dir, size_t d, uint64_t seat, uint64_t opening, uint64_t sender, uint64_t date,
                         const uint8_t *sheet, size_t m, uint8_t *slip, size_t l);

/* Takes back the last step of a seat; where that answered a transfer, it waits again. Answers 0, 1, 3 or 10. */
uint64_t damvurit_take_back(uint64_t *room, size_t n, uint64_t seat, uint64_t opening);

/*
 * Reads an account, 1 or 2, of an owner. `out` gets the opening sum, the balance, the turnover, block outgoing, block incoming, LTK and LPO (0 for
 * none, n + 1 for n), or zeros. A transfer that waits shows in no account. Answers 0, 1, 2, 3 or 6.
 */
uint64_t damvurit_read(const uint64_t *room, size_t n, const uint64_t *dir, size_t d, uint64_t seat, uint64_t opening, uint64_t owner,
                       uint64_t account, uint64_t out[7]);

/*
 * Writes a slip into the first six bytes of a buffer of l bytes, six or more; those after them stay. Kind 1 pacs.008, 2 camt.050, 3 pacs.028,
 * 4 pacs.002; status 0 PDNG, 1 ACCC, 2 RJCT, 3 it waits; check 0 to 37, one that the kind and the status can have; seat 0 to 11; opening 1 to 65,535;
 * step 1 to 24. Answers 0 or 11.
 */
uint64_t damvurit_write_slip(uint64_t kind, uint64_t status, uint64_t check, uint64_t seat, uint64_t opening, uint64_t step, uint8_t *slip, size_t l);

/*
 * Reads a slip of l bytes, exactly five or exactly six: the length alone says the form, and a five-byte slip with a byte after it may be a slip that
 * says something else. `out` gets kind, status, check, seat, opening and step, the same six numbers from either form, or zeros. Five bytes know
 * kinds 1 to 3, status 0 to 2, checks 0 to 34 and seats 0 to 7 alone. Answers 0 or 11.
 */
uint64_t damvurit_read_slip(const uint8_t *slip, size_t l, uint64_t out[6]);

#ifdef __cplusplus
}
#endif

#endif
