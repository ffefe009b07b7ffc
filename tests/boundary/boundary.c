/*
 * Calls the static library from C. Plays the eleven cases of document 01, the two stages of a transfer, what an account opens with, and every call
 * in seats 8 to 11; then brings about each refusal, 1 to 12, and what stands just beside it.
 * A line for each check; the last line counts them, and the exit status is 0 where none is wrong.
 * What is wanted is written here by hand, slips too (`slip_bytes` packs them anew): nothing of the library is used to judge the library.
 */
#include "damvurit.h"

#include <inttypes.h>
#include <stdarg.h>
#include <stdio.h>
#include <string.h>

#define RECORD 4
#define SEAT_NUMBERS (DAMVURIT_ROOM_SIZE / DAMVURIT_SEATS)
#define EIGHT_SEATS_NUMBERS (8 * SEAT_NUMBERS)
#define STEPS 24
#define ACCOUNTS_FROM 3
#define ACCOUNT_NUMBERS 7
#define LPO_AT 6
#define STEPS_FROM 227
#define STEP_NUMBERS 31
#define RECEIVER_AT 29
#define ANSWERS_AT 30
#define OLD_LPO_AT 24
#define UNTOUCHED_BYTE 0xAA
#define UNTOUCHED_NUMBER UINT64_C(0xAAAAAAAAAAAAAAAA)
#define HIGHEST UINT64_C(1000000000000000)
#define NO_LPO 0
#define LPO(n) ((n) + 1)
#define TODAY 20240301
#define MORNING "2024-03-01T09:30:00"
#define IBAN "UA21322313000002600723356600"

/* an array as a call is lent it: where it stands, and how many elements it has */
#define COUNT(array) (sizeof(array) / sizeof((array)[0]))
#define LENT(array) array, COUNT(array)

static unsigned right, wrong;

static void checked(int holds, const char *what) {
    if (holds) right++;
    else wrong++;
    printf("%s  %s\n", holds ? "right" : "WRONG", what);
}

static void same(uint64_t got, uint64_t want, const char *what) {
    checked(got == want, what);
    if (got != want)
        printf("       got %" PRIu64 " with %" PRIu64 ", want %" PRIu64 " with %" PRIu64 "\n",
               DAMVURIT_NUMBER(got), DAMVURIT_DETAIL(got), DAMVURIT_NUMBER(want), DAMVURIT_DETAIL(want));
}

static uint64_t with(uint64_t number, uint64_t detail) { return number + 256 * detail; }

/* ---- The room of all tests, its directory, and the ticket of its first opening. */

static uint64_t room[DAMVURIT_ROOM_SIZE];
static uint64_t room_before[DAMVURIT_ROOM_SIZE];

static const uint64_t seat = 3, opening = 1;

/* two owners, an indirect branch of the first and a direct branch of the second, all instant */
static const uint64_t directory[] = {
    300001, 1, 0, 0,
    300002, 1, 0, 0,
    300011, 1, 2, 300001,
    300012, 1, 1, 300002,
};

/* 500.00 and 100.00 for 300001, others empty. An account opens with its sum as its LPO, or with none where that is 0 */
#define SUM_1 50000
#define SUM_2 10000

static const uint64_t sums[] = {SUM_1, SUM_2, 0, 0, 0, 0, 0, 0};

static uint64_t opened(void) { return damvurit_open(LENT(room), LENT(directory), seat, LENT(sums)); }

/* The start of each case: a room that was laid out, with the seat open. */
static void begin(void) {
    if (damvurit_lay_out(LENT(room)) != 0 || opened() != with(0, opening)) checked(0, "the start of a case");
}

static void keep_room(void) { memcpy(room_before, room, sizeof room); }

static int room_stays(void) { return memcmp(room_before, room, sizeof room) == 0; }

/* A call that is refused: its result, and the room as it came. */
static void refused(uint64_t got, uint64_t want, const char *what) {
    same(got, want, what);
    checked(room_stays(), "       the room stays");
}

/* ---- Sheets, as bytes. */

static uint8_t sheet[10000];
static size_t sheet_long;

static void write_sheet(const char *form, ...) {
    va_list words;
    va_start(words, form);
    int n = vsnprintf((char *)sheet, sizeof sheet, form, words);
    va_end(words);
    sheet_long = n > 0 && (size_t)n < sizeof sheet ? (size_t)n : 0;
}

#define MEMBER(name, code) "<" name "><FinInstnId><ClrSysMmbId><MmbId>" code "</MmbId></ClrSysMmbId></FinInstnId></" name ">"
#define AGENT(name, code) \
    "<" name "><FinInstnId><ClrSysMmbId><ClrSysId><Prtry>SEP</Prtry></ClrSysId><MmbId>" code "</MmbId></ClrSysMmbId></FinInstnId></" name ">"
#define UETR "6f1a2b3c-4d5e-4f60-8a9b-0c1d2e3f405"

/* camt.050: an amount from one account of the sender to the other; the digit tells messages apart */
static void liquidity(unsigned debit, unsigned credit, unsigned sender, char digit, const char *created, const char *amount) {
    write_sheet("<Document><LqdyCdtTrf><MsgHdr><MsgId>%u202403010000000%c</MsgId><CreDtTm>%s</CreDtTm></MsgHdr><LqdyCdtTrf><LqdyTrfId>"
                "<UETR>" UETR "%c</UETR><TrfdAmt Ccy=\"UAH\">%s</TrfdAmt>"
                "<DbtrAcct><Id><Othr><Id>%u%uUAH</Id></Othr></Id></DbtrAcct><CdtrAcct><Id><Othr><Id>%u%uUAH</Id></Othr></Id></CdtrAcct>"
                "</LqdyTrfId></LqdyCdtTrf></LqdyCdtTrf></Document>",
                sender, digit, created, digit, amount, debit, sender, credit, sender);
}

/* from account 1 to account 2 */
static void camt050(unsigned sender, char digit, const char *created, const char *amount) { liquidity(1, 2, sender, digit, created, amount); }

/* pacs.008: 50.00 from a customer of 300001 to the IBAN of a customer of 300002 */
static void pacs008(char digit, const char *iban) {
    write_sheet("<Document><FIToFICstmrCdtTrf><GrpHdr><MsgId>300001202403010000000%c</MsgId><CreDtTm>" MORNING "</CreDtTm>"
                MEMBER("InstgAgt", "300001") MEMBER("InstdAgt", "300002") "</GrpHdr>"
                "<CdtTrfTxInf><PmtId><EndToEndId>INVOICE-7</EndToEndId><UETR>" UETR "%c</UETR></PmtId>"
                "<IntrBkSttlmAmt Ccy=\"UAH\">50.00</IntrBkSttlmAmt>"
                AGENT("DbtrAgt", "300001") "<DbtrAcct><Id><IBAN>" IBAN "1</IBAN></Id></DbtrAcct>"
                AGENT("CdtrAgt", "300002") "<CdtrAcct><Id><IBAN>%s</IBAN></Id></CdtrAcct>"
                "</CdtTrfTxInf></FIToFICstmrCdtTrf></Document>",
                digit, digit, iban);
}

/* pacs.028: what became of the pacs.008 with another digit */
static void pacs028(char digit, char original) {
    write_sheet("<Document><FIToFIPmtStsReq><GrpHdr><MsgId>300001202403010000000%c</MsgId><CreDtTm>" MORNING "</CreDtTm>"
                MEMBER("InstgAgt", "300001") "</GrpHdr>"
                "<TxInf><OrgnlGrpInf><OrgnlMsgId>300001202403010000000%c</OrgnlMsgId><OrgnlMsgNmId>pacs.008.001.08</OrgnlMsgNmId>"
                "<OrgnlCreDtTm>" MORNING "</OrgnlCreDtTm></OrgnlGrpInf><OrgnlUETR>" UETR "%c</OrgnlUETR><OrgnlEndToEndId>INVOICE-7</OrgnlEndToEndId>"
                "</TxInf></FIToFIPmtStsReq></Document>",
                digit, original, original);
}

#define REFUSED "<TxInfAndSts><TxSts>RJCT</TxSts></TxInfAndSts>"

/* pacs.002: what a sender answers to the pacs.008 with another digit, with TxSts or nothing after the group's status */
static void pacs002(unsigned sender, char digit, char original, const char *group, const char *transaction) {
    write_sheet("<Document><FIToFIPmtStsRpt><GrpHdr><MsgId>%u202403010000000%c</MsgId><CreDtTm>" MORNING "</CreDtTm></GrpHdr>"
                "<OrgnlGrpInfAndSts><OrgnlMsgId>300001202403010000000%c</OrgnlMsgId><GrpSts>%s</GrpSts></OrgnlGrpInfAndSts>%s"
                "</FIToFIPmtStsRpt></Document>",
                sender, digit, original, group, transaction);
}

/* ---- Slips. The buffer has two bytes more than a slip that is written, which no call may touch. */

enum { PACS008 = 1, CAMT050 = 2, PACS028 = 3, PACS002 = 4 };
enum { PDNG = 0, ACCC = 1, RJCT = 2, WAITS = 3 };

static uint8_t slip[DAMVURIT_SLIP_SIZE + 2];

static void clear_slip(void) { memset(slip, UNTOUCHED_BYTE, sizeof slip); }

static int slip_stays(void) {
    for (size_t i = 0; i < sizeof slip; i++)
        if (slip[i] != UNTOUCHED_BYTE) return 0;
    return 1;
}

/* The 41 bits of a slip of the first opening, most significant first: kind 3, status 2, check 6, seat 4, opening 16, step 10; then seven zeros. */
static void slip_bytes(uint64_t kind, uint64_t status, uint64_t check, uint64_t at, uint64_t step, uint8_t bytes[DAMVURIT_SLIP_SIZE]) {
    uint64_t bits = kind << 45 | status << 43 | check << 37 | at << 33 | opening << 17 | step << 7;
    for (int i = 0; i < DAMVURIT_SLIP_SIZE; i++) bytes[i] = (uint8_t)(bits >> (40 - 8 * i));
}

/* The buffer has these six bytes, and what is after them was not touched. */
static int slip_has(const uint8_t bytes[DAMVURIT_SLIP_SIZE]) {
    uint8_t want[sizeof slip];
    memset(want, UNTOUCHED_BYTE, sizeof want);
    memcpy(want, bytes, DAMVURIT_SLIP_SIZE);
    return memcmp(slip, want, sizeof slip) == 0;
}

static int slip_in_seat(uint64_t kind, uint64_t status, uint64_t check, uint64_t at, uint64_t step) {
    uint8_t want[DAMVURIT_SLIP_SIZE];
    slip_bytes(kind, status, check, at, step, want);
    return slip_has(want);
}

static int slip_is(uint64_t kind, uint64_t status, uint64_t check, uint64_t step) { return slip_in_seat(kind, status, check, seat, step); }

/* The sheet that was written last, submitted: with a directory and so many bytes of the buffer, or as most messages are. */
static uint64_t submitted_with(const uint64_t *dir, size_t d, uint64_t sender, uint64_t date, size_t l) {
    clear_slip();
    keep_room();
    return damvurit_submit(LENT(room), dir, d, seat, opening, sender, date, sheet, sheet_long, slip, l);
}

static uint64_t submitted(uint64_t sender, uint64_t date) { return submitted_with(LENT(directory), sender, date, sizeof slip); }

/* A message that is taken: one step more, with this slip. */
static void taken(uint64_t sender, uint64_t kind, uint64_t status, uint64_t check, uint64_t step, const char *what) {
    same(submitted(sender, TODAY), 0, what);
    checked(slip_is(kind, status, check, step), "       its slip, and the bytes after it");
}

static void not_taken(uint64_t got, uint64_t want, const char *what) {
    refused(got, want, what);
    checked(slip_stays(), "       the slip stays");
}

/* camt.050 of 300001 over an amount, from account 1 to account 2 */
static void moves(char digit, const char *amount, uint64_t status, uint64_t check, uint64_t step, const char *what) {
    camt050(300001, digit, MORNING, amount);
    taken(300001, CAMT050, status, check, step, what);
}

/* ---- Accounts. The array has two numbers more than an account, which no call may touch. */

static uint64_t out[9];

static void clear_out(void) {
    for (size_t i = 0; i < COUNT(out); i++) out[i] = UNTOUCHED_NUMBER;
}

static uint64_t read_with(const uint64_t *dir, size_t d, uint64_t at, uint64_t opened_as, uint64_t owner, uint64_t account) {
    clear_out();
    keep_room();
    return damvurit_read(LENT(room), dir, d, at, opened_as, owner, account, out);
}

static int out_is(const uint64_t want[7]) {
    return memcmp(out, want, 7 * sizeof out[0]) == 0 && out[7] == UNTOUCHED_NUMBER && out[8] == UNTOUCHED_NUMBER;
}

static void holds_of(uint64_t owner, uint64_t account, const uint64_t want[7], const char *what) {
    same(read_with(LENT(directory), seat, opening, owner, account), 0, what);
    checked(out_is(want), "       its seven numbers");
    checked(room_stays(), "       the room stays");
}

static void holds(uint64_t account, uint64_t opening_sum, uint64_t balance, uint64_t turnover, uint64_t ltk, uint64_t lpo, const char *what) {
    holds_of(300001, account, (const uint64_t[7]){opening_sum, balance, turnover, 0, 0, ltk, lpo}, what);
}

/* Accounts 2 of both owners, by their balances and what went out of the first. */
static void balances(uint64_t first, uint64_t turnover, uint64_t second, const char *what) {
    holds(2, SUM_2, first, turnover, 0, LPO(SUM_2), what);
    holds_of(300002, 2, (const uint64_t[7]){0, second, 0, 0, 0, 0, NO_LPO}, "       account 2 of 300002");
}

static void not_read(uint64_t got, uint64_t want, const char *what) {
    static const uint64_t zeros[7];
    refused(got, want, what);
    checked(out_is(zeros), "       seven zeros");
}

/* A set of account 1 of 300001. */
static uint64_t set_all(uint64_t block_out, uint64_t block_in, uint64_t ltk, uint64_t lpo) {
    keep_room();
    return damvurit_set(LENT(room), LENT(directory), seat, opening, 300001, 1, block_out, block_in, ltk, lpo);
}

static uint64_t set_limits(uint64_t ltk, uint64_t lpo) { return set_all(0, 0, ltk, lpo); }

static uint64_t taken_back(void) {
    keep_room();
    return damvurit_take_back(LENT(room), seat, opening);
}

static uint64_t closed(void) {
    keep_room();
    return damvurit_close(LENT(room), seat, opening);
}

/* ---- The eleven cases. */

static void case_1(void) {
    begin();
    moves('1', "500.00", ACCC, 0, 1, "case 1: 500.00 from account 1 to account 2");
    holds(1, SUM_1, 0, 50000, 0, LPO(SUM_1), "case 1: 0.00 are left");
    holds(2, SUM_2, 60000, 0, 0, LPO(SUM_2), "case 1: there are 600.00");
    begin();
    moves('1', "500.01", RJCT, 22, 1, "case 1: 500.01 fails check 22, and not 23");
    holds(1, SUM_1, SUM_1, 0, 0, LPO(SUM_1), "case 1: nothing moved");
}

static void case_2(void) {
    begin();
    same(set_limits(10000, LPO(SUM_1)), 0, "case 2: LTK 100.00");
    moves('1', "400.00", ACCC, 0, 2, "case 2: 400.00 are done");
    begin();
    same(set_limits(10000, LPO(SUM_1)), 0, "case 2: LTK 100.00 again");
    moves('1', "400.01", RJCT, 22, 2, "case 2: 400.01 fails check 22");
}

static void case_3(void) {
    begin();
    same(set_limits(0, LPO(40000)), 0, "case 3: LPO 400.00");
    moves('1', "400.00", ACCC, 0, 2, "case 3: 400.00 are done");
    moves('2', "0.01", RJCT, 23, 3, "case 3: 0.01 more fails check 23");
    holds(1, SUM_1, 10000, 40000, 0, LPO(40000), "case 3: the account with its LPO");
    begin();
    same(set_limits(0, LPO(0)), 0, "case 3: LPO 0");
    moves('1', "0.01", RJCT, 24, 2, "case 3: 0.01 fails check 24");
    holds(1, SUM_1, SUM_1, 0, 0, LPO(0), "case 3: an LPO of 0 is no missing one");
}

static void case_4(void) {
    begin();
    camt050(300012, '1', MORNING, "1.00");
    taken(300012, CAMT050, RJCT, 4, 1, "case 4: a direct branch's camt.050 fails check 4");
    begin();
    camt050(300011, '1', MORNING, "1.00");
    not_taken(submitted(300011, TODAY), with(12, 2), "case 4: an indirect branch's is refused by 12 with check 2");
}

static void case_5(void) {
    begin();
    camt050(300001, '1', "2024-02-29T23:59:59", "1.00");
    taken(300001, CAMT050, ACCC, 0, 1, "case 5: created on the leap day before");
    begin();
    camt050(300001, '1', "2024-02-28T23:59:59", "1.00");
    taken(300001, CAMT050, RJCT, 7, 1, "case 5: created two days before, fails check 7");
}

static void case_6(void) {
    begin();
    pacs008('1', IBAN "1");
    taken(300001, PACS008, WAITS, 0, 1, "case 6: a right IBAN, the pacs.008 waits");
    begin();
    pacs008('1', IBAN "2");
    taken(300001, PACS008, RJCT, 34, 1, "case 6: with another last digit, fails check 34");
}

static void case_7(void) {
    begin();
    pacs008('1', IBAN "1");
    taken(300001, PACS008, WAITS, 0, 1, "case 7: a pacs.008");
    pacs028('2', '1');
    taken(300001, PACS028, PDNG, 10, 2, "case 7: a pacs.028 fails check 10 while it waits");
    same(taken_back(), 0, "case 7: the pacs.028 is taken back");
    pacs002(300002, '3', '1', "ACCP", "");
    taken(300002, PACS002, ACCC, 0, 2, "case 7: its answer");
    pacs028('2', '1');
    taken(300001, PACS028, ACCC, 0, 3, "case 7: the pacs.028 tells how it ended");
    same(taken_back(), 0, "case 7: the pacs.028 is taken back");
    same(taken_back(), 0, "case 7: the answer is taken back");
    same(taken_back(), 0, "case 7: the pacs.008 is taken back");
    taken(300001, PACS028, PDNG, 10, 1, "case 7: the same pacs.028 fails check 10");
}

static const uint8_t slip_of_case_8[DAMVURIT_SLIP_SIZE] = {0x48, 0x06, 0x00, 0x02, 0x00, 0x80};
static const uint8_t five_bytes_of_case_8[DAMVURIT_FIVE_BYTE_SLIP_SIZE] = {0x48, 0x0C, 0x00, 0x04, 0x01};

/* Case 8's slip, written into a buffer of so many bytes. */
static void slip_written(size_t l, const char *what) {
    clear_slip();
    same(damvurit_write_slip(CAMT050, ACCC, 0, 3, 1, 1, slip, l), 0, what);
    checked(slip_has(slip_of_case_8), "       its bytes, and those after it");
}

/* Bytes that are read as a slip of an accepted camt.050. */
static void slip_read(const uint8_t *bytes, size_t l, uint64_t at, uint64_t opened_as, uint64_t step, const char *what) {
    const uint64_t values[6] = {CAMT050, ACCC, 0, at, opened_as, step};
    clear_out();
    same(damvurit_read_slip(bytes, l, out), 0, what);
    checked(memcmp(out, values, sizeof values) == 0 && out[6] == UNTOUCHED_NUMBER, "       its six numbers");
}

static void case_8(void) {
    static const uint8_t and_a_zero[DAMVURIT_SLIP_SIZE] = {0x48, 0x0C, 0x00, 0x04, 0x01, 0x00};
    begin();
    moves('1', "1.00", ACCC, 0, 1, "case 8: a camt.050 in seat 3");
    checked(slip_has(slip_of_case_8), "case 8: its slip is 48 06 00 02 00 80");
    slip_written(6, "case 8: the slip, written into six bytes");
    slip_written(7, "case 8: the slip, written into seven bytes");
    slip_written(8, "case 8: the slip, written into eight bytes");
    slip_read(LENT(slip_of_case_8), 3, 1, 1, "case 8: the slip, read");
    slip_read(LENT(five_bytes_of_case_8), 3, 1, 1, "case 8: 48 0C 00 04 01 of a mark book, read");
    slip_read(LENT(and_a_zero), 6, 2, 2, "case 8: with a zero byte it is a slip of six bytes, which says something else");
}

static void case_9(void) {
    begin();
    write_sheet("<A></A>");
    not_taken(submitted(300001, TODAY), with(7, 4), "case 9: <A></A> is refused at 4");
    write_sheet("<A>x</B>");
    not_taken(submitted(300001, TODAY), with(7, 6), "case 9: <A>x</B> is refused at 6");
    clear_slip();
    not_taken(damvurit_submit(LENT(room), LENT(directory), seat, opening, 300001, TODAY, NULL, 0, slip, sizeof slip), with(7, 0),
              "case 9: nothing is refused at 0");
}

static void case_10(void) {
    begin();
    same(closed(), 0, "case 10: closed");
    same(opened(), with(0, 2), "case 10: opened for the second time");
    not_read(read_with(LENT(directory), seat, 1, 300001, 1), 3, "case 10: a read with opening 1");
    refused(set_limits(0, NO_LPO), 3, "case 10: a set with opening 1");
    camt050(300001, '1', MORNING, "1.00");
    not_taken(submitted(300001, TODAY), 3, "case 10: a submit with opening 1");
    refused(taken_back(), 3, "case 10: a take-back with opening 1");
    refused(closed(), 3, "case 10: a close with opening 1");
}

/* the journal is full */
static void full(void) {
    unsigned done = 0;
    begin();
    for (int i = 0; i < STEPS; i++) done += set_limits(0, NO_LPO) == 0;
    same(done, STEPS, "24 steps");
}

static void case_11(void) {
    full();
    refused(set_limits(0, NO_LPO), 9, "case 11: a set as step 25");
    camt050(300001, '1', MORNING, "1.00");
    not_taken(submitted(300001, TODAY), 9, "case 11: a submit as step 25");
    same(taken_back(), 0, "case 11: a take-back");
    taken(300001, CAMT050, ACCC, 0, 24, "case 11: the same submit as step 24");
}

/* ---- The two stages of a transfer. */

/* A pacs.008 of 50.00 that waits as step 1. */
static void awaiting(void) {
    begin();
    pacs008('1', IBAN "1");
    taken(300001, PACS008, WAITS, 0, 1, "two stages: a pacs.008 waits");
    balances(10000, 0, 0, "two stages: nothing has moved");
}

/* It is settled, the answer is taken back, and it is answered the other way. */
static void answered_twice(void) {
    awaiting();
    pacs002(300002, '2', '1', "ACCP", "");
    taken(300002, PACS002, ACCC, 0, 2, "two stages: the receiving bank accepts");
    balances(5000, 5000, 5000, "two stages: 50.00 have moved");
    pacs002(300002, '3', '1', "RJCT", "");
    taken(300002, PACS002, RJCT, 35, 3, "two stages: a second answer fails check 35");
    same(taken_back(), 0, "two stages: it is taken back");
    same(taken_back(), 0, "two stages: so is the first");
    balances(10000, 0, 0, "two stages: the money is back");
    pacs002(300002, '2', '1', "RJCT", "");
    taken(300002, PACS002, RJCT, 36, 2, "two stages: the receiving bank cannot process it");
    same(taken_back(), 0, "two stages: that is taken back");
    pacs002(300002, '2', '1', "RJCT", REFUSED);
    taken(300002, PACS002, RJCT, 37, 2, "two stages: the receiving bank refuses the credit");
    pacs028('3', '1');
    taken(300001, PACS028, RJCT, 37, 3, "two stages: a pacs.028 tells of it");
    balances(10000, 0, 0, "two stages: nothing has moved");
}

/* Only the bank that it waits for can answer, and only while it is listed. */
static void answered_by(void) {
    static const uint64_t indirect[] = {300001, 1, 0, 0, 300002, 1, 2, 300001};
    static const uint64_t alone[] = {300002, 1, 0, 0};
    awaiting();
    pacs002(300012, '2', '1', "ACCP", "");
    taken(300012, PACS002, RJCT, 35, 2, "two stages: its branch answers for it, check 35");
    pacs002(300001, '3', '1', "ACCP", "");
    taken(300001, PACS002, RJCT, 35, 3, "two stages: the sender answers, check 35");
    pacs002(300002, '4', '1', "ACCP", "");
    not_taken(submitted_with(LENT(indirect), 300002, TODAY, sizeof slip), with(12, 2), "two stages: as an indirect branch it is refused by 12");
    same(submitted_with(LENT(alone), 300002, TODAY, sizeof slip), 0, "two stages: listed alone it is taken");
    checked(slip_is(PACS002, ACCC, 0, 4), "       its slip, and the bytes after it");
    balances(5000, 5000, 5000, "two stages: the accounts are those that the pacs.008 was sent with");
}

/* The money is looked at when the answer comes. */
static void answered_late(void) {
    awaiting();
    same(damvurit_set(LENT(room), LENT(directory), seat, opening, 300001, 2, 0, 0, 5001, LPO(SUM_2)), 0, "two stages: LTK 50.01 meanwhile");
    pacs002(300002, '2', '1', "ACCP", "");
    taken(300002, PACS002, RJCT, 22, 3, "two stages: 50.00 fail check 22");
    same(taken_back(), 0, "two stages: the answer is taken back");
    same(damvurit_set(LENT(room), LENT(directory), seat, opening, 300001, 2, 0, 0, 5000, LPO(SUM_2)), 0, "two stages: LTK 50.00");
    taken(300002, PACS002, ACCC, 0, 4, "two stages: the same answer settles it");
}

/* What a slip of six bytes says, and its bytes. */
struct image {
    uint64_t values[6];
    uint8_t bytes[DAMVURIT_SLIP_SIZE];
};

static const struct image images[] = {
    {{PACS008, WAITS, 0, 0, 1, 1}, {0x38, 0x00, 0x00, 0x02, 0x00, 0x80}},
    {{PACS002, ACCC, 0, 0, 1, 2}, {0x88, 0x00, 0x00, 0x02, 0x01, 0x00}},
    {{PACS002, RJCT, 36, 0, 1, 2}, {0x94, 0x80, 0x00, 0x02, 0x01, 0x00}},
    {{PACS002, RJCT, 35, 0, 1, 2}, {0x94, 0x60, 0x00, 0x02, 0x01, 0x00}},
    {{PACS002, RJCT, 37, 11, 65535, 24}, {0x94, 0xB7, 0xFF, 0xFE, 0x0C, 0x00}},
    {{PACS028, PDNG, 10, 0, 1, 2}, {0x61, 0x40, 0x00, 0x02, 0x01, 0x00}},
    {{PACS028, RJCT, 37, 0, 1, 3}, {0x74, 0xA0, 0x00, 0x02, 0x01, 0x80}},
};

static void slip_images(void) {
    for (size_t i = 0; i < COUNT(images); i++) {
        const uint64_t *v = images[i].values;
        clear_slip();
        same(damvurit_write_slip(v[0], v[1], v[2], v[3], v[4], v[5], LENT(slip)), 0, "two stages: a slip, written");
        checked(slip_has(images[i].bytes), "       its bytes, and those after it");
        clear_out();
        same(damvurit_read_slip(LENT(images[i].bytes), out), 0, "       the slip, read");
        checked(memcmp(out, v, sizeof images[i].values) == 0 && out[6] == UNTOUCHED_NUMBER, "       its six numbers");
    }
}

/* ---- What an account opens with. */

/* 300001 sends a camt.050 from account 2 to account 1. */
static void returns(char digit, const char *amount, uint64_t status, uint64_t check, uint64_t step, const char *what) {
    liquidity(2, 1, 300001, digit, MORNING, amount);
    taken(300001, CAMT050, status, check, step, what);
}

/* Account 2 opens with 100.00 and gets 400.00; its LPO does not grow with the money. */
static void limited(void) {
    static const uint64_t zeros[7];
    begin();
    holds(1, SUM_1, SUM_1, 0, 0, LPO(SUM_1), "opening: account 1 has its sum as its LPO");
    holds(2, SUM_2, SUM_2, 0, 0, LPO(SUM_2), "opening: so has account 2");
    holds_of(300002, 1, zeros, "opening: an account without a sum has none");
    moves('1', "400.00", ACCC, 0, 1, "opening: 400.00 come in");
    returns('2', "100.01", RJCT, 23, 2, "opening: 100.01 fail check 23");
    returns('3', "100.00", ACCC, 0, 3, "opening: 100.00 are done");
    same(damvurit_set(LENT(room), LENT(directory), seat, opening, 300001, 2, 0, 0, 0, NO_LPO), 0, "opening: LPO none");
    returns('4', "0.01", ACCC, 0, 5, "opening: 0.01 more is done");
    same(taken_back(), 0, "opening: that is taken back");
    same(taken_back(), 0, "opening: and the set");
    holds(2, SUM_2, 40000, SUM_2, 0, LPO(SUM_2), "opening: the LPO is back");
    returns('4', "0.01", RJCT, 23, 4, "opening: 0.01 more fails check 23");
}

/* What is received by an account that opened with nothing can be sent on: none is not an LPO of 0. */
static void unlimited(void) {
    awaiting();
    pacs002(300002, '2', '1', "ACCP", "");
    taken(300002, PACS002, ACCC, 0, 2, "opening: 50.00 come in");
    liquidity(2, 1, 300002, '3', MORNING, "50.00");
    taken(300002, CAMT050, ACCC, 0, 3, "opening: 50.00 are sent on");
}

/* ---- Seats 8 to 11, which six bytes alone can name. */

static uint64_t submitted_in(uint64_t at) {
    clear_slip();
    camt050(300001, '1', MORNING, "1.00");
    return damvurit_submit(LENT(room), LENT(directory), at, opening, 300001, TODAY, sheet, sheet_long, LENT(slip));
}

/* Every call in a seat, from its opening to its closing. */
static void plays_in(uint64_t at) {
    static const uint64_t want[7] = {SUM_1, SUM_1 - 100, 100, 0, 0, 0, LPO(SUM_1)};
    char what[40];
    snprintf(what, sizeof what, "seat %" PRIu64 ": opened", at);
    same(damvurit_open(LENT(room), LENT(directory), at, LENT(sums)), with(0, opening), what);
    same(submitted_in(at), 0, "       a camt.050");
    checked(slip_in_seat(CAMT050, ACCC, 0, at, 1), "       its slip, and the bytes after it");
    slip_read(slip, DAMVURIT_SLIP_SIZE, at, opening, 1, "       the slip, read");
    same(read_with(LENT(directory), at, opening, 300001, 1), 0, "       the account, read");
    checked(out_is(want), "       its seven numbers");
    same(damvurit_set(LENT(room), LENT(directory), at, opening, 300001, 1, 1, 0, 0, 0), 0, "       the account, set");
    same(damvurit_take_back(LENT(room), at, opening), 0, "       the set, taken back");
    same(damvurit_close(LENT(room), at, opening), 0, "       closed");
}

/* Seats 0 to 3 end in the same three bits as 8 to 11: one of them is open meanwhile and stays as it is. */
static void high_seats(void) {
    begin();
    for (uint64_t at = 8; at < DAMVURIT_SEATS; at++) plays_in(at);
    holds(1, SUM_1, SUM_1, 0, 0, LPO(SUM_1), "seat 3 stays as it is");
}

/* ---- The refusals. */

/* A room of eight seats; each call but for the length is good. */
static void eight_seats(void) {
    begin();
    same(set_limits(0, NO_LPO), 0, "1: a step to take back");
    keep_room();
    refused(damvurit_lay_out(room, EIGHT_SEATS_NUMBERS), 1, "1: laying out a room of eight seats");
    refused(damvurit_open(room, EIGHT_SEATS_NUMBERS, LENT(directory), 0, LENT(sums)), 1, "1: opening in a room of eight seats");
    refused(damvurit_set(room, EIGHT_SEATS_NUMBERS, LENT(directory), seat, opening, 300001, 1, 0, 0, 0, 0), 1, "1: setting in it");
    camt050(300001, '1', MORNING, "1.00");
    clear_slip();
    not_taken(damvurit_submit(room, EIGHT_SEATS_NUMBERS, LENT(directory), seat, opening, 300001, TODAY, sheet, sheet_long, LENT(slip)), 1,
              "1: submitting in it");
    refused(damvurit_take_back(room, EIGHT_SEATS_NUMBERS, seat, opening), 1, "1: taking back in it");
    clear_out();
    not_read(damvurit_read(room, EIGHT_SEATS_NUMBERS, LENT(directory), seat, opening, 300001, 1, out), 1, "1: reading in it");
    refused(damvurit_close(room, EIGHT_SEATS_NUMBERS, seat, opening), 1, "1: closing in it");
}

static void refusal_1(void) {
    begin();
    keep_room();
    refused(damvurit_lay_out(room, COUNT(room) - 1), 1, "1: laying out a room that is too short");
    refused(damvurit_lay_out(NULL, 0), 1, "1: laying out no room");
    refused(damvurit_close(room, COUNT(room) - 1, seat, opening), 1, "1: closing in a room that is too short");
    room[SEAT_NUMBERS * 11 + 2] = 1; /* a step in a closed seat elsewhere */
    keep_room();
    refused(opened(), 1, "1: opening in an unfit room");
    refused(closed(), 1, "1: closing");
    refused(damvurit_set(LENT(room), NULL, 0, DAMVURIT_SEATS, 0, 0, 0, 2, 2, 0, 0), 1, "1: setting, with all else bad too");
    camt050(300001, '1', MORNING, "1.00");
    not_taken(submitted(300001, TODAY), 1, "1: submitting");
    refused(taken_back(), 1, "1: taking back");
    not_read(read_with(LENT(directory), seat, opening, 300001, 1), 1, "1: reading");
}

/* A room whose rows of a transfer and its answer no longer go together. */
static void unfit_rows(void) {
    uint64_t *transfer = room + SEAT_NUMBERS * seat + STEPS_FROM, *answer = transfer + STEP_NUMBERS;
    begin();
    pacs008('1', IBAN "1");
    taken(300001, PACS008, WAITS, 0, 1, "1: a pacs.008");
    pacs002(300002, '2', '1', "ACCP", "");
    taken(300002, PACS002, ACCC, 0, 2, "1: its answer");
    checked(transfer[RECEIVER_AT] == 300002 && answer[ANSWERS_AT] == 1, "1: the rows have the receiver and the step that is answered");
    transfer[RECEIVER_AT] = 999999;
    keep_room();
    same(read_with(LENT(directory), seat, opening, 300001, 2), 0, "1: another receiver is not unfit");
    transfer[RECEIVER_AT] = 1000000;
    refused(taken_back(), 1, "1: a receiver above 999999");
    transfer[RECEIVER_AT] = 300002;
    answer[ANSWERS_AT] = 0;
    refused(taken_back(), 1, "1: an answer that names no step");
    answer[ANSWERS_AT] = 2;
    refused(taken_back(), 1, "1: an answer that names itself");
    answer[ANSWERS_AT] = 1;
    same(taken_back(), 0, "1: the room as it was is fit");
}

/* A room whose limits do not come out from its opening sums. */
static void unfit_limits(void) {
    uint64_t *in_seat = room + SEAT_NUMBERS * seat;
    uint64_t *first = in_seat + ACCOUNTS_FROM + LPO_AT, *second = first + ACCOUNT_NUMBERS, *empty = second + ACCOUNT_NUMBERS;
    uint64_t *old = in_seat + STEPS_FROM + OLD_LPO_AT;
    begin();
    *first = *second = NO_LPO;
    keep_room();
    not_read(read_with(LENT(directory), seat, opening, 300001, 1), 1, "1: neither account opened with an LPO");
    refused(closed(), 1, "1: closing there");
    *second = LPO(SUM_2);
    not_read(read_with(LENT(directory), seat, opening, 300001, 1), 1, "1: account 1 alone opened without");
    *first = LPO(SUM_1 + 1);
    not_read(read_with(LENT(directory), seat, opening, 300001, 1), 1, "1: an LPO one kopeck above its opening sum");
    *first = LPO(SUM_1);
    *empty = LPO(0);
    not_read(read_with(LENT(directory), seat, opening, 300001, 1), 1, "1: LPO 0 where the opening sum is 0");
    *empty = NO_LPO;
    same(set_limits(0, NO_LPO), 0, "1: the room as it was is fit");
    checked(*old == LPO(SUM_1), "1: the set has the LPO that the account opened with");
    *old = NO_LPO;
    refused(taken_back(), 1, "1: a set that has none as the LPO before it");
    *old = LPO(SUM_1);
    same(taken_back(), 0, "1: the room as it was is fit");
}

static void unfit_directory(const uint64_t *dir, size_t d, const char *what) {
    static const uint64_t none[32];
    keep_room();
    refused(damvurit_open(LENT(room), dir, d, 0, none, d / RECORD * 2), 2, what);
}

static void refusal_2(void) {
    static const uint64_t instant_2[] = {300001, 2, 0, 0};
    static const uint64_t kind_4[] = {300001, 1, 0, 0, 300002, 1, 4, 300001};
    static const uint64_t owner_names[] = {300001, 1, 0, 300001};
    static const uint64_t last_bad[] = {300001, 1, 0, 0, 300002, 1, 0, 0, 300003, 1, 0, 1};
    static const uint64_t code_high[] = {1000000, 1, 0, 0};
    static const uint64_t twice[] = {300001, 1, 0, 0, 300001, 1, 0, 0};
    static const uint64_t names_nobody[] = {300001, 1, 0, 0, 300002, 1, 1, 300003};
    static uint64_t seventeen[17 * RECORD];
    for (size_t i = 0; i < 17; i++) seventeen[RECORD * i] = 300001 + i;
    begin();
    unfit_directory(NULL, 0, "2: no record");
    unfit_directory(directory, 15, "2: a number is missing");
    unfit_directory(directory, 13, "2: three numbers are missing");
    unfit_directory(directory, 3, "2: three numbers");
    unfit_directory(LENT(instant_2), "2: instant is 2");
    unfit_directory(LENT(kind_4), "2: the kind is 4");
    unfit_directory(LENT(owner_names), "2: an owner names a code");
    unfit_directory(LENT(last_bad), "2: the last record is bad");
    unfit_directory(LENT(code_high), "2: a code above 999999");
    unfit_directory(LENT(twice), "2: a code twice");
    unfit_directory(LENT(names_nobody), "2: a branch of nobody");
    unfit_directory(LENT(seventeen), "2: 17 records");
    keep_room();
    same(damvurit_open(LENT(room), seventeen, 16 * RECORD, 0, (const uint64_t[32]){0}, 32), with(0, 1), "2: 16 records are not refused");
    keep_room();
    refused(damvurit_set(LENT(room), NULL, 0, DAMVURIT_SEATS, 0, 0, 0, 2, 2, 0, 0), 2, "2: setting, with all after it bad too");
    camt050(300001, '1', MORNING, "1.00");
    not_taken(submitted_with(NULL, 0, 300001, TODAY, sizeof slip), 2, "2: submitting");
    not_read(read_with(NULL, 0, seat, opening, 300001, 1), 2, "2: reading");
}

static void refusal_3(void) {
    begin();
    keep_room();
    refused(damvurit_open(LENT(room), LENT(directory), 12, LENT(sums)), 3, "3: opening seat 12");
    refused(damvurit_open(LENT(room), LENT(directory), 16, LENT(sums)), 3, "3: opening seat 16");
    refused(damvurit_close(LENT(room), 12, opening), 3, "3: closing seat 12");
    refused(damvurit_take_back(LENT(room), 12, opening), 3, "3: taking back in seat 12");
    not_taken(submitted_in(12), 3, "3: submitting in seat 12");
    refused(damvurit_close(LENT(room), 4, 0), 3, "3: closing a closed seat");
    refused(damvurit_take_back(LENT(room), seat, UINT64_MAX), 3, "3: taking back with another opening number");
    refused(damvurit_set(LENT(room), LENT(directory), UINT64_MAX, opening, 0, 0, 2, 2, 0, 0), 3, "3: setting, with all after it bad too");
    not_read(read_with(LENT(directory), 12, opening, 300001, 1), 3, "3: reading in seat 12");
    not_read(read_with(LENT(directory), seat, 0, 300001, 1), 3, "3: reading with opening 0");
}

static void refusals_4_and_5(void) {
    begin();
    keep_room();
    refused(opened(), 4, "4: opening an open seat");
    same(damvurit_lay_out(LENT(room)), 0, "5: a new room");
    room[SEAT_NUMBERS * seat] = 65534;
    same(opened(), with(0, 65535), "5: the last opening");
    keep_room();
    same(damvurit_close(LENT(room), seat, 65535), 0, "5: closed");
    keep_room();
    refused(opened(), 5, "5: opening once more");
}

static void bad_sums(const uint64_t *given, size_t k, const char *what) {
    keep_room();
    refused(damvurit_open(LENT(room), LENT(directory), 0, given, k), 6, what);
}

static void refusal_6(void) {
    static const uint64_t high[8] = {HIGHEST + 1};
    static const uint64_t highest[8] = {HIGHEST, HIGHEST};
    static const uint64_t branch[8] = {0, 0, 0, 0, 1};
    begin();
    bad_sums(high, 8, "6: a sum above 10^15");
    bad_sums(branch, 8, "6: a sum for a branch");
    bad_sums(sums, 7, "6: a sum too few");
    bad_sums(NULL, 0, "6: no sums");
    same(damvurit_open(LENT(room), LENT(directory), 0, highest, 8), with(0, 1), "6: sums of 10^15 are not refused");
    refused(set_all(2, 0, 0, NO_LPO), 6, "6: block outgoing is 2");
    refused(set_all(0, 2, 0, NO_LPO), 6, "6: block incoming is 2");
    refused(set_all(UINT64_MAX, 1, 0, NO_LPO), 6, "6: block outgoing is the largest number");
    refused(set_limits(HIGHEST + 1, NO_LPO), 6, "6: an LTK above 10^15");
    refused(set_limits(0, LPO(HIGHEST + 1)), 6, "6: an LPO above 10^15");
    refused(set_limits(0, UINT64_MAX), 6, "6: the largest LPO");
    same(set_all(1, 0, HIGHEST, LPO(HIGHEST)), 0, "6: block outgoing and limits of 10^15 are not refused");
    same(read_with(LENT(directory), seat, opening, 300001, 1), 0, "6: the account then");
    checked(out_is((const uint64_t[7]){SUM_1, SUM_1, 0, 1, 0, HIGHEST, LPO(HIGHEST)}), "       its seven numbers");
    same(set_all(0, 1, 0, NO_LPO), 0, "6: block incoming and no limits are not refused");
    same(read_with(LENT(directory), seat, opening, 300001, 1), 0, "6: the account then");
    checked(out_is((const uint64_t[7]){SUM_1, SUM_1, 0, 0, 1, 0, NO_LPO}), "       its seven numbers");
    keep_room();
    refused(damvurit_set(LENT(room), LENT(directory), seat, opening, 300001, 3, 0, 0, 0, 0), 6, "6: setting account 3");
    refused(damvurit_set(LENT(room), LENT(directory), seat, opening, 300012, 1, 0, 0, 0, 0), 6, "6: setting a branch's account");
    not_read(read_with(LENT(directory), seat, opening, 300001, 0), 6, "6: reading account 0");
    not_read(read_with(LENT(directory), seat, opening, 300003, 1), 6, "6: reading an account of nobody");
    camt050(300001, '1', MORNING, "1.00");
    not_taken(submitted(1000000, TODAY), 6, "6: a sender above 999999");
    not_taken(submitted(300001, 20230229), 6, "6: a date that is not real");
    full();
    refused(set_all(0, 2, 0, NO_LPO), 6, "6: a block of 2 with a full journal is 6 and not 9");
}

static void refusals_7_and_8(void) {
    begin();
    write_sheet("<A>x</A>\n");
    not_taken(submitted(300001, TODAY), with(7, 8), "7: a byte after the sheet");
    memset(sheet, 'x', 8193);
    sheet_long = 8193;
    not_taken(submitted(300001, TODAY), with(7, 8192), "7: 8,193 bytes");
    write_sheet("<A>x</A>");
    not_taken(submitted(300001, TODAY), with(8, 0), "8: an unknown message");
    camt050(300001, '1', MORNING, "1.0");
    not_taken(submitted(300001, TODAY), with(8, 4), "8: a camt.050 whose field 4, the amount, is ill-shaped");
    pacs008('1', "UA");
    not_taken(submitted(300001, TODAY), with(8, 14), "8: a pacs.008 whose field 14, the creditor's IBAN, is ill-shaped");
    pacs002(300002, '1', '1', "ACCC", "");
    not_taken(submitted(300002, TODAY), with(8, 4), "8: a pacs.002 whose field 4, GrpSts, is ill-shaped");
    pacs002(300002, '1', '1', "ACCP", REFUSED);
    not_taken(submitted(300002, TODAY), with(8, 5), "8: a pacs.002 with field 5, TxSts, though GrpSts is ACCP");
}

static void refusals_9_and_10(void) {
    full();
    refused(set_limits(0, NO_LPO), 9, "9: setting with 24 steps");
    write_sheet("<A></A>");
    not_taken(submitted(300001, TODAY), 9, "9: submitting an ill-formed sheet with 24 steps");
    begin();
    refused(taken_back(), 10, "10: taking back with no step");
}

/* A refused read of a slip: 11, and six zeros. */
static void not_slip(const uint8_t *bytes, size_t l, const char *what) {
    static const uint64_t zeros[6];
    clear_out();
    same(damvurit_read_slip(bytes, l, out), 11, what);
    checked(memcmp(out, zeros, sizeof zeros) == 0 && out[6] == UNTOUCHED_NUMBER, "       six zeros");
}

static void not_written(uint64_t kind, uint64_t status, uint64_t check, uint64_t at, uint64_t opened_as, uint64_t step, size_t l, const char *what) {
    clear_slip();
    same(damvurit_write_slip(kind, status, check, at, opened_as, step, slip, l), 11, what);
    checked(slip_stays(), "       the buffer stays");
}

static void no_slip_submitted(void) {
    full();
    camt050(300001, '1', MORNING, "1.00");
    not_taken(submitted_with(LENT(directory), 300001, TODAY, 4), 11, "11: submitting with a buffer of four bytes and 24 steps");
    not_taken(submitted_with(LENT(directory), 300001, TODAY, 5), 11, "11: submitting with a buffer of five bytes and 24 steps");
    not_taken(damvurit_submit(LENT(room), LENT(directory), seat, opening, 300001, TODAY, sheet, sheet_long, NULL, 0), 11,
              "11: submitting with no buffer");
    begin();
    not_taken(submitted_with(LENT(directory), 300001, TODAY, 5), 11, "11: submitting with a buffer of five bytes");
    same(submitted_with(LENT(directory), 300001, TODAY, 6), 0, "11: six bytes are not refused");
    checked(slip_is(CAMT050, ACCC, 0, 1), "       its slip, and the bytes after it");
}

static void no_slip_written(void) {
    not_written(CAMT050, ACCC, 0, 3, 1, 1, 4, "11: writing into four bytes");
    not_written(CAMT050, ACCC, 0, 3, 1, 1, 5, "11: writing into five bytes");
    not_written(0, ACCC, 0, 3, 1, 1, sizeof slip, "11: writing kind 0");
    not_written(5, ACCC, 0, 3, 1, 1, sizeof slip, "11: writing kind 5");
    not_written(PACS002, PDNG, 3, 3, 1, 1, sizeof slip, "11: writing pacs.002 with PDNG");
    not_written(PACS002, RJCT, 8, 3, 1, 1, sizeof slip, "11: writing pacs.002 with check 8");
    not_written(PACS002, RJCT, 38, 3, 1, 1, sizeof slip, "11: writing check 38");
    not_written(PACS008, RJCT, 36, 3, 1, 1, sizeof slip, "11: writing pacs.008 with check 36");
    not_written(PACS008, WAITS, 22, 3, 1, 1, sizeof slip, "11: writing a pacs.008 that waits, with check 22");
    not_written(PACS028, RJCT, 35, 3, 1, 1, sizeof slip, "11: writing pacs.028 with check 35");
    not_written(CAMT050, WAITS, 0, 3, 1, 1, sizeof slip, "11: writing a camt.050 that waits");
    not_written(CAMT050, PDNG, 0, 3, 1, 1, sizeof slip, "11: writing camt.050 with PDNG");
    not_written(CAMT050, RJCT, 25, 3, 1, 1, sizeof slip, "11: writing camt.050 with check 25");
    for (uint64_t at = 12; at <= 16; at++) not_written(CAMT050, ACCC, 0, at, 1, 1, sizeof slip, "11: writing a seat from 12 on");
    not_written(CAMT050, ACCC, 0, 3, 0, 1, sizeof slip, "11: writing opening 0");
    not_written(CAMT050, ACCC, 0, 3, 65536, 1, sizeof slip, "11: writing opening 65536");
    not_written(CAMT050, ACCC, 0, 3, 1, 25, sizeof slip, "11: writing step 25");
}

/* Case 8's six bytes with a one among the last seven bits, each by itself. */
static void no_slip_with_a_bit(void) {
    for (int bit = 0; bit < 7; bit++) {
        uint8_t bytes[DAMVURIT_SLIP_SIZE];
        memcpy(bytes, slip_of_case_8, sizeof bytes);
        bytes[5] |= (uint8_t)(1 << bit);
        not_slip(LENT(bytes), "11: reading a slip with a one among the last seven bits");
    }
}

/* Six bytes with a number that fits into four bits and is no seat. */
static void no_slip_of_a_seat(uint64_t at) {
    uint8_t bytes[DAMVURIT_SLIP_SIZE];
    slip_bytes(CAMT050, ACCC, 0, at, 1, bytes);
    not_slip(LENT(bytes), "11: reading a slip of a seat from 12 on");
}

static void no_slip_read(void) {
    static const uint8_t check_1[DAMVURIT_SLIP_SIZE] = {0x50, 0x26, 0x00, 0x02, 0x00, 0x80}; /* camt.050, RJCT with check 1 */
    static const uint8_t five_with_check_1[DAMVURIT_FIVE_BYTE_SLIP_SIZE] = {0x50, 0x2C, 0x00, 0x04, 0x01};
    static const uint8_t five_that_wait[DAMVURIT_FIVE_BYTE_SLIP_SIZE] = {0x38, 0x00, 0x00, 0x04, 0x01}; /* pacs.008, status 3 */
    static const uint8_t five_of_kind_4[DAMVURIT_FIVE_BYTE_SLIP_SIZE] = {0x88, 0x00, 0x00, 0x04, 0x02}; /* pacs.002, ACCC */
    static const uint8_t seven[] = {0x48, 0x06, 0x00, 0x02, 0x00, 0x80, 0x00};
    not_slip(NULL, 0, "11: reading nothing");
    not_slip(slip_of_case_8, 4, "11: reading four bytes");
    not_slip(slip_of_case_8, 5, "11: reading five bytes of a slip of six");
    not_slip(LENT(seven), "11: reading seven bytes");
    not_slip(LENT(check_1), "11: reading a slip with check 1");
    not_slip(LENT(five_with_check_1), "11: reading a slip of five bytes with check 1");
    not_slip(LENT(five_that_wait), "11: reading a slip of five bytes that waits");
    not_slip(LENT(five_of_kind_4), "11: reading a slip of five bytes of a pacs.002");
    for (uint64_t at = 12; at <= 15; at++) no_slip_of_a_seat(at);
    no_slip_with_a_bit();
}

/* Each kind of record, by what becomes of its camt.050. */
static void refusal_12(void) {
    static const uint64_t all_kinds[] = {
        300001, 1, 0, 0,
        300002, 1, 1, 300001,
        300003, 1, 2, 300001,
        300004, 1, 3, 300001,
    };
    begin();
    camt050(300001, '1', MORNING, "1.00");
    same(submitted_with(LENT(all_kinds), 300001, TODAY, sizeof slip), 0, "12: an owner is taken");
    checked(slip_is(CAMT050, ACCC, 0, 1), "       its slip");
    camt050(300002, '2', MORNING, "1.00");
    same(submitted_with(LENT(all_kinds), 300002, TODAY, sizeof slip), 0, "12: a direct branch is taken, though it is no owner");
    checked(slip_is(CAMT050, RJCT, 4, 2), "       its slip");
    camt050(300003, '3', MORNING, "1.00");
    not_taken(submitted_with(LENT(all_kinds), 300003, TODAY, sizeof slip), with(12, 2), "12: an indirect branch fails check 2");
    camt050(300004, '4', MORNING, "1.00");
    not_taken(submitted_with(LENT(all_kinds), 300004, TODAY, sizeof slip), with(12, 1), "12: a provider fails check 1");
    camt050(300005, '5', MORNING, "1.00");
    not_taken(submitted_with(LENT(all_kinds), 300005, TODAY, sizeof slip), with(12, 1), "12: a sender who is not listed fails check 1");
}

int main(void) {
    same(damvurit_room_size(), DAMVURIT_ROOM_SIZE, "the size of a room");
    case_1();
    case_2();
    case_3();
    case_4();
    case_5();
    case_6();
    case_7();
    case_8();
    case_9();
    case_10();
    case_11();
    answered_twice();
    answered_by();
    answered_late();
    limited();
    unlimited();
    slip_images();
    high_seats();
    eight_seats();
    refusal_1();
    unfit_rows();
    unfit_limits();
    refusal_2();
    refusal_3();
    refusals_4_and_5();
    refusal_6();
    refusals_7_and_8();
    refusals_9_and_10();
    no_slip_submitted();
    no_slip_written();
    no_slip_read();
    refusal_12();
    printf("%u right, %u wrong\n", right, wrong);
    return wrong != 0;
}
