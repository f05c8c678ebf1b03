/*
 * telhavina: judges a priority order of the CAN messages on one bus, and finds one; reads and writes books of licences; grants and
 * withdraws rows on a ledger that the caller keeps.
 *
 * Link with libtelhavina.a. The functions allocate nothing, keep nothing between calls, and need nothing but memcpy and memset. Every
 * input is answered or refused by number; nothing has to be checked beforehand.
 */
#ifndef TELHAVINA_H
#define TELHAVINA_H

#include <stddef.h>
#include <stdint.h>

#ifdef __cplusplus
extern "C" {
#endif

/*
 * A reply: its number, and the numbers that it carries, in order, 0 where there are fewer.
 *
 *   number                     first              second        the list lent for the answer, or the ledger
 *   100  passed                0                  0             the figure of row i at place i
 *   101  late                  first late place   0             the same, with 0 for each late row
 *   102  found                 bands tried        0             the row numbers, highest priority first, from place 0 on
 *   103  book read             rows               0             the words, six a row, from place 0 on
 *   104  book written          bytes              0             the book, from byte 0 on
 *   105  granted               the new edition    0             the row added at the end, the edition raised
 *   106  withdrawn             the new edition    0             the row taken out, the gap closed, the edition raised
 *     1  ragged                0                  0             untouched
 *     2  too many rows         0                  0             untouched
 *     3  bad row               row                field         untouched
 *     4  no room               0                  0             untouched
 *     5  order length          0                  0             untouched
 *     6  order entry           position           0             untouched
 *     7  split queue           position           0             untouched
 *     8  no order              unplaced bands     bands tried   untouched
 *     9  ledger closed         0                  0             untouched
 *    10  other edition         0                  0             untouched
 *    11  no such row           0                  0             untouched
 *    20  empty book            0                  0             untouched
 *    21  book length           0                  0             untouched
 *    22  book offset           row                0             untouched
 *    23  bad ledger            0                  0             untouched
 *
 * Judging replies 100, 101 or 1 to 7; finding replies 102, 1 to 4 or 8; reading a book 103, 20, 2, 21, 22 or 4; writing one 104,
 * 1, 2 or 4; claiming 105, 23, 1, 3, 9, 10, 2 or 8; withdrawing 106, 23, 9, 10 or 11. Rows, places and positions count from 0, fields
 * from 1. Of several refusals the first in these lists is given.
 */
typedef struct telhavina_reply {
    uint32_t number;
    uint32_t first;
    uint32_t second;
} telhavina_reply;

/*
 * Judges an order.
 *
 * table    six words a row, 1 to 64 rows, times in bit times of the bus:
 *            1  queue            0 = priority; 1 to 64 = FIFO of that number
 *            2  form of length   0 = bit times; 1 = bytes, 11-bit identifier; 2 = bytes, 29-bit identifier
 *            3  size             form 0: 1 to 4,096; forms 1 and 2: 0 to 8
 *            4  period T         1 to 1,000,000
 *            5  deadline D       1 to T
 *            6  jitter J         0 to D
 *          A frame counts with the most stuff bits that so many bits could need: s bytes are 55 + 10s bit times in form 1 and 80 + 10s
 *          in form 2. In form 0 the size is taken as it stands: the stuff bits and the gap to the next frame must be in it.
 * order    the row numbers, highest priority first: each row once, the rows of a FIFO next to each other
 * figures  room for a word a row, or more. Places past the last row are never written.
 *
 * Each list is a pointer, aligned and not null, and then its length in words; of a list of length 0 nothing is read. The
 * list of figures may overlap neither of the others.
 *
 * The figure of a row is a time from queuing within which it is wholly sent, the least that the published equations allow; a
 * row is late where they allow none within D - J (for a row of a FIFO, within the least D - J of its queue).
 */
telhavina_reply telhavina_judge(const uint32_t *table, size_t table_len,
                                const uint32_t *order, size_t order_len,
                                uint32_t *figures, size_t figures_len);

/*
 * Finds an order that passes when judged.
 *
 * table    as for judging
 * order    room for a word a row, or more. Places past the last row are never written.
 *
 * Each list is a pointer, aligned and not null, and then its length in words; of a list of length 0 nothing is read. The
 * two lists may not overlap.
 *
 * A band is one priority row, or all rows of one FIFO. The lowest place is filled first: the bands that have no place yet
 * are tried there in rising order of their first row, the others of them taken as above, and the first that passes is
 * placed. If none passes, no order does. The rows of a FIFO stand in rising row number. The number of bands tried counts
 * those of all places, the highest included; of 64 bands it is at most 2,080.
 */
telhavina_reply telhavina_find(const uint32_t *table, size_t table_len,
                               uint32_t *order, size_t order_len);

/*
 * Reads a book of licences: a table as a file.
 *
 * book     the row count in two bytes, 1 to 64; the offset of each row from the book's start, four bytes a row; all high byte
 *          first. Then, with nothing between, the rows in order, 24 bytes each: the six words of a row as for judging, four bytes a
 *          word, low byte first. Row i of n starts at 2 + 4n + 24i, and the book ends with the last: it has 2 bytes and 28 more for
 *          each row, 30 for one row and 1,794 for 64.
 * words    room for six words a row, or more. Places past the last row's are never written.
 *
 * Each list is a pointer, not null and that of the words aligned, and then its length in bytes or in words; of a list of length
 * 0 nothing is read. The two lists may not overlap. The words are as they stand in the book: whether they are allowed is asked by
 * judging and finding.
 *
 * Refused: 20 under two bytes, or a count of 0; 2 a count over 64; 21 another length than that of a book with so many rows; 22 a row
 * whose offset is not where it starts, with the first such row; 4 no room for the words.
 */
telhavina_reply telhavina_book_read(const uint8_t *book, size_t book_len,
                                    uint32_t *words, size_t words_len);

/*
 * Writes a book of licences. What it writes, reading gives back word for word; and what reading takes, it writes again byte for
 * byte.
 *
 * words    six words a row, 1 to 64 rows, any words
 * book     room for 2 bytes and 28 more for each row, or more. Bytes past the book's last are never written.
 *
 * The lists are lent as for reading, and may not overlap.
 */
telhavina_reply telhavina_book_write(const uint32_t *words, size_t words_len,
                                     uint8_t *book, size_t book_len);

/*
 * A ledger of granted rows, which the caller keeps and lends to each call.
 *
 * words    the rows held, one behind the other, six words a row as for judging. Words behind them mean nothing, though they may look
 *          like rows.
 * held     how many rows are held, 0 to 64
 * edition  how often the ledger has changed. At 4,294,967,295 it is closed.
 *
 * A ledger that starts fresh and is changed by the calls below alone holds the granted rows less the withdrawn, in order; its edition is
 * the number of changes; and if it holds a row, telhavina_find finds an order for its rows, lent as words and 6 * held. That order may
 * differ everywhere from the one before the change: ask for it after each. Any other ledger may be lent as well; one whose rows are
 * allowed but have no order gets 8 for claims, and rows can be withdrawn from it.
 *
 * Calls on one ledger have to come one after the other: the library locks nothing. A copy of a ledger is a ledger of its own, and can
 * grant for the same edition.
 */
typedef struct telhavina_ledger {
    uint32_t words[384];
    uint32_t held;
    uint32_t edition;
} telhavina_ledger;

/*
 * A ledger that holds nothing yet: words, held and edition all 0.
 */
telhavina_ledger telhavina_ledger_fresh(void);

/*
 * Claims room for one more row.
 *
 * ledger        with the reply 105 the six words stand behind the rows held, and held and edition have grown by one; every other word has
 *               the value that it had, and with any other reply all have.
 * row           six words, as for judging
 * seen_edition  the edition that the claimant saw when he made the claim, and not the ledger's, read for this call: then 10 could never be
 *               given. Of two claims for one edition at most one is granted.
 *
 * The ledger is a pointer, aligned and not null, to memory that can be written and that nobody else uses during the call: any word of it
 * may be stored again, also where the reply is a refusal. The row is a pointer, aligned and not null, and then its length in words, and
 * may not overlap the ledger; of a row of length 0 nothing is read.
 *
 * Refused: 23 a ledger that holds more than 64 rows, or a row that is not allowed; 1 another length of the row than six; 3 a row that is
 * not allowed, with row 0 and its field; 9 a closed ledger; 10 another edition than the ledger's; 2 where 64 rows are held already; 8 no
 * order for the rows held and this one, with the bands unplaced and tried.
 */
telhavina_reply telhavina_claim(telhavina_ledger *ledger,
                                const uint32_t *row, size_t row_len,
                                uint32_t seen_edition);

/*
 * Withdraws a row, so that its room can be claimed again.
 *
 * ledger        with the reply 106 the rows behind the one named have the number one less, held has fallen by one and the edition grown by
 *               one; the words behind the rows then held, those of what was the last row included, have the values that they had. With
 *               any other reply every word has.
 * row_number    which of the rows held, from 0
 * seen_edition  the edition that the one who withdraws it saw
 *
 * The ledger is lent as for claiming.
 *
 * Refused: 23, 9 and 10 as for claiming; 11 where no row of this number is held.
 */
telhavina_reply telhavina_withdraw(telhavina_ledger *ledger,
                                   uint32_t row_number, uint32_t seen_edition);

#ifdef __cplusplus
}
#endif

#endif
