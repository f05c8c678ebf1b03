//! The texts that explain the program.

/// How it is called, in short.
pub const USAGE: &str = "\
usage: telhavina judge TABLE.csv [ORDER] [--json]
       telhavina find TABLE.csv [--json]
       telhavina pack TABLE.csv > BOOK
       telhavina unpack [BOOK] > TABLE.csv
       telhavina desk LEDGER new [--bitrate N] [--json]
       telhavina desk LEDGER claim NAME QUEUE LENGTH PERIOD DEADLINE JITTER --edition N [--json]
       telhavina desk LEDGER withdraw NAME --edition N [--json]
       telhavina desk LEDGER show [--json]
       telhavina --help
       In the place of a file, - is standard input; a file called - is ./- (or - after --).
";

/// How it is called, and all that an officer has to know.
pub const HELP: &str = "\
telhavina: is every message of this CAN bus sent within its time?

usage
  telhavina judge TABLE.csv [ORDER] [--json]   judge an order of priority
  telhavina find TABLE.csv [--json]            find an order of priority that passes
  telhavina pack TABLE.csv > BOOK              make a book of a table
  telhavina unpack [BOOK] > TABLE.csv          make a table of a book
  telhavina desk LEDGER new [--bitrate N] [--json]
                                               make a ledger that holds nothing
  telhavina desk LEDGER claim NAME QUEUE LENGTH PERIOD DEADLINE JITTER --edition N [--json]
                                               claim room for one more message
  telhavina desk LEDGER withdraw NAME --edition N [--json]
                                               withdraw a message that is held
  telhavina desk LEDGER show [--json]          show what is held, and its figures
  telhavina --help                             show this text
  To judge and find, a book can stand in the place of TABLE.csv.
  In the place of a file, - is standard input; a file called - is ./- (or - after --).

ORDER
  The messages from the highest priority to the lowest, in one argument with commas between them:
  names, or row numbers (rows count from 0 in the order of the file). The messages of one FIFO
  stand together. Without ORDER, the order is that of the file: first line, or row, highest.

the file
  # bitrate 250000
  name,queue,length,period,deadline,jitter
  Rudder,priority,ext 8,10,10,0.5
  Winch speed,fifo 1,std 4,50,50,0
  Winch load,fifo 1,bits 95,100,80,0

  bitrate   Bits per second. If it is there, on the first line, times are milliseconds with at
            most 9 decimals, and rounded so as never to flatter: period and deadline down to whole
            bit times, jitter up. Without it, times are whole bit times.
  name      Any text without a comma or quotes; no two are alike.
  queue     priority, or fifo N with N from 1 to 64.
  length    std N: N bytes, 11-bit identifier; ext N: N bytes, 29-bit identifier (0 to 8 bytes);
            bits N: N bit times, 1 to 4096. A frame counts with the most stuff bits that so many
            bits could need: std N is 55 + 10N bit times and ext N is 80 + 10N. bits N is taken as
            it stands: the stuff bits and the gap to the next frame must be in it.
  period    1 to 1000000 bit times.
  deadline  From 1 bit time to the period.
  jitter    From 0 to the deadline.
  A file has 1 to 64 messages. Blank lines and lines that start with # are skipped. Blanks around
  a cell do not matter. Capital or small letters do not matter in the header, in the queue and in
  the words std, ext and bits; in names they do.

the book
  The same table as yards send it, in a binary file. It has no names and no bit rate: its messages
  are called row0, row1 and so on, and its times are whole bit times. Send the bit rate along with
  it: nobody can tell it from the book.
  pack      Writes the book of a table to standard output, but not to a screen. Times are rounded
            as above. Rows with numbers out of range (refusal 3) are written as well, if they fit
            32 bits. BOOK has to be another file than TABLE.csv: the shell empties it first.
  unpack    Writes the table of a book to standard output. Without BOOK, the book comes from
            standard input. Packed, the table gives the same book again; but once its lines are
            moved, the message called rowN is no longer row N of the book. If a length is neither
            bits, std nor ext, a table cannot hold it, and nothing is written. TABLE.csv has to be
            another file than BOOK.
  Its bytes, for n rows: the row count, 2 bytes; for each row its offset, 4 bytes, where row i
  starts at 2 + 4n + 24i; these high byte first. Then for each row six words of 4 bytes, low byte
  first: queue (0: priority), form (0: bits, 1: std, 2: ext), size, period, deadline, jitter.
  2 + 28n bytes in all. A file is taken for a book if its first byte is zero, or its second after a
  control character, unless it looks like UTF-16 text: a book has two zero bytes after the row
  count, and a text has no NUL character.

the desk
  Room on one bus, granted to one message after another. LEDGER is the file, never standard input,
  that holds what was granted, and an edition: it starts at 0 and grows by one with each change.
  new       Makes the file, if there is none of this name. With a bit rate, times are milliseconds,
            as in a table; without it, whole bit times. A ledger keeps the one it was made with.
  claim     Grants the message if there is an order of all held messages and this one that passes,
            and says 'no room' if there is none. The six cells are those of a line of a table, each
            an argument of its own: those with a blank in them stand in quotes ('std 8', 'fifo 1').
  withdraw  Frees the room of a message. NAME is its name, or the number of its row; the rows
            behind it move up by one.
  show      The edition, and the held messages in the order that find would give.
  edition   Claim and withdraw need the edition that you saw. If the ledger has changed since, they
            are refused (refusal 10), and you look again: of two who claim the last room, one is
            granted it, and the other is told so. Every answer names the edition that the ledger
            has now. Edition 4294967295 is the last; a ledger that has it is closed (refusal 9).
  What is granted or withdrawn is on disk before it is said; a refusal alters nothing. A change is
  made by one at a time: who comes second waits for the lock, LEDGER.lock, which stays beside the
  ledger and is not to be removed. The ledger is replaced as a whole, by way of a file
  LEDGER.(16 digits).tmp: if the program is stopped halfway, the old ledger is there or the new
  one, and what is left over is removed at the next change. A name or a cell that starts with -
  comes after --.
  Its bytes: the lines 'telhavina ledger 1', 'edition N', 'bitrate N' (if there is one), 'messages
  N' and a name a line, each with LF; then the book of the rows, if there are any; then the CRC-32
  of all that, 4 bytes, high byte first. Anything else is refused as damaged.

the answer
  A table, highest priority first, then the verdict.
  figure    The time from queuing within which the message is wholly sent; 'late' where none can
            be given within the time allowed. A late line starts with ! (grep '^!').
  allowed   Deadline less jitter; for a message in a FIFO, the least of its queue.
  slack     Allowed less figure.
  With a bit rate, the same three follow in milliseconds.
  'found' gives an order that can be used as ORDER, and how many bands were tried; a band is one
  priority message, or all messages of one FIFO. 'no order' says that no order passes.
  With --json, the same is one JSON object on one line, and nothing is on standard error.

the JSON object
  The key verdict comes first; its values, each with the other keys:
  passed      file, bitrate, order, messages
  late        file, bitrate, order, late_count, first (name, place), messages
  found       file, bitrate, order, tried, messages
  no order    number, message, file, bitrate, unplaced, tried
  refused     number, message, file, line, column: a refusal of the library, by its number
  unreadable  message, file, line, column: a file or an ORDER that cannot be read
  usage       message: a command line that cannot be followed
  At the desk, they are usage as above, and
  made        file, edition, bitrate
  granted     file, edition, name, row
  withdrawn   file, edition, name, row
  shown       file, edition, bitrate, order, tried, messages
  no order    number, message, file, edition, bitrate, unplaced, tried: there is no room
  refused     number, message, file, edition, column: a refusal of the library, by its number
  unreadable  message, file, edition, line, column: a claim that cannot be read, or whose name is
              held already; without edition, a ledger that cannot be read
  Each of messages, highest priority first, has name, row, line, queue, late, figure, allowed, slack
  and, with a bit rate, figure_ms, allowed_ms, slack_ms. A late one has null for figure and slack.
  Without a bit rate, bitrate is null. Where there is no line or no column to name, the key is
  left out, as always for a book: there, the text of message tells the row and the field. Places
  and rows count from 0, lines from 1. To pack and unpack, there is no --json: it is a wrong command
  line, and standard error says so.

exit status
  0  passed, or found; packed, or unpacked; at the desk: made, granted, withdrawn, or shown
  1  late, or no order; at the desk: no room, which is no order too (refusal 8)
  2  refused, or not readable; a wrong command line; an answer that cannot be written (to judge,
     find and desk, a reader that leaves early is none): the reason is on standard error or, with
     --json, in the object, if that can be written. At the desk, an answer that cannot be written
     may stand for a change that was made: show tells

examples
  telhavina desk deck.ledger new --bitrate 250000
  telhavina desk deck.ledger claim Rudder priority 'ext 8' 10 10 0.5 --edition 0
  telhavina pack examples/table_a.csv > table_a.book
  telhavina find table_a.book
  telhavina judge examples/table_a.csv C,F,A,B
";
