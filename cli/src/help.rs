//! What `--help` prints. The examples run in the folder of the samples, and the tests run them.

/// The help of the command itself.
pub const ALL: &str = "\
Sim0MQ messages and recordings: listed, blanked, checked, kept and counted.

    sim0mq list [FILE]              the listing of a message
    sim0mq blank [FILE] [-o OUT]    the blanked copy of a message or of a recording
    sim0mq value FILE K             the scalar value of field K
    sim0mq record -o REC FILE..     a recording of messages
    sim0mq messages REC             the messages of a recording, a line for each
    sim0mq show REC K               message K of a recording
    sim0mq salvage CUT -o REC       what can be kept of a recording that was cut
    sim0mq check FILE               which command of the manual's chapter 4 a message is
    sim0mq decks REC                how many heads are on each deck
    sim0mq help COMMAND             more of one of them, as its --help
    sim0mq --version                the version

A FILE that is - is standard input. Messages, fields and decks are counted from 0, places in bytes
from 0. What is refused is a line `refused N at P` on standard output, and what N means a line on
standard error. The status is 0 where all is fine, 1 where something is refused, 2 where the use is
wrong or the system fails.
";

/// The help of `list`.
pub const LIST: &str = "\
sim0mq list [FILE] [--json]

The listing of the message in FILE, or on standard input: edition, number of fields, steps and
length, then for each field its number, its code, the place of its code byte, the place of its first
value byte, the number of its value bytes, of its marks and of its values.

    --json      the same as JSON

    $ sim0mq list message.bin
    SIM01 fields 1 steps 9 length 77
    0 5 68 69 8 0 1
";

/// The help of `blank`.
pub const BLANK: &str = "\
sim0mq blank [FILE] [-o OUT] [--force]

The blanked copy of the message or the recording in FILE, or on standard input: the same bytes, with
zero in every value byte of the fields. It tells how the messages are built, and none of the values;
the four ids of a header stay.

    -o OUT      write it to OUT, not to standard output
    --force     replace OUT where it is there

    $ sim0mq blank length.bin | sim0mq value - 0
    0.0 Length in METER, display KILOMETER
";

/// The help of `value`.
pub const VALUE: &str = "\
sim0mq value FILE K [--json]

The value of field K of the message in FILE, where it is a scalar. With a unit, it is followed by
the unit's name, by what the value is counted in, and by the unit in which it is to be shown.
Nothing is converted. Money is counted in its currency, and by the unit that it names.

    --json      the same as JSON

    $ sim0mq value length.bin 0
    60000.0 Length in METER, display KILOMETER
";

/// The help of `record`.
pub const RECORD: &str = "\
sim0mq record -o REC FILE.. [--force]

A recording of the messages in the FILEs, in their order. A FILE may hold several messages end to
end. Where one of them is refused, its place is counted in its FILE, and nothing is written.

    -o REC      the recording; - is standard output
    --force     replace REC where it is there

    $ cat message.bin command.bin | sim0mq record -o - message.bin - | sim0mq messages -
    0 0 77 1 9 DSOL.3 2
    1 77 77 1 9 DSOL.3 2
    2 154 62 0 8 FM.4 1
";

/// The help of `messages`.
pub const MESSAGES: &str = "\
sim0mq messages REC [--json]

A line for each message of the recording: its number, where it begins, its length, its fields, its
steps, the id of its type and its status (1 new, 2 change, 3 delete). An id that is no 8-bit string
is written u\"..\", short\"..\" or int\"..\", and what cannot be printed in it \\x and its digits.

    --json      the same as JSON

    $ sim0mq messages season.rec | tail -n 2
    75 5093 68 1 9 MUS.1 1
    76 5161 67 2 10 MUS.1 2
";

/// The help of `show`.
pub const SHOW: &str = "\
sim0mq show REC K [--json] [--raw [-o OUT] [--force]]

The listing of message K of the recording, of which no other message is judged.

    --json      the same as JSON
    --raw       its bytes
    -o OUT      write them to OUT, not to standard output
    --force     replace OUT where it is there

    $ sim0mq show season.rec 28
    SIM01 fields 2 steps 10 length 67
    0 0 63 64 1 0 1
    1 0 65 66 1 0 1
";

/// The help of `salvage`.
pub const SALVAGE: &str = "\
sim0mq salvage CUT -o REC [--force]

A recording of the longest run of messages from the front of CUT, which may be a recording that was
cut or damaged. What was kept and dropped, and why it stopped there, is a line on standard error.

    -o REC      the recording; - is standard output
    --force     replace REC where it is there

    $ sim0mq salvage cut.rec -o - 2>&1 >/dev/null
    kept 3 dropped 11 refused 2 at 189
";

/// The help of `check`.
pub const CHECK: &str = "\
sim0mq check FILE [--json]

Which command of the manual's chapter 4 the message in FILE is, or why it is none. For a recording a
line for each message, with its number; places are counted in that message. The status is 1 where
one is none.

    --json      the same as JSON

    $ sim0mq check command.bin
    FM.4 SimStart
";

/// The help of `decks`.
pub const DECKS: &str = "\
sim0mq decks REC [--deck D] [--at K] [--history] [--svg FILE [--force]] [--json]

How many heads are on each deck after the musters of the recording, from empty decks. Then how many
messages were applied, refused, and passed over since they are no musters; and for each refusal that
was met its number, how often, and what it means.

    --deck D    the heads on deck D alone
    --at K      after message K, not after the last
    --history   a line for each message that changed the heads of a deck, with what they were then
    --svg FILE  write a picture too: heads on each deck, and each deck over the messages
    --force     replace FILE where it is there
    --json      the same as JSON

    $ sim0mq decks season.rec --deck 7
    10
";
