// Made from crates/command/src/help.rt by tools/erase: not to be edited.
//! The texts of the help.

// The suites, and the lengths of their keys.
pub(in crate::command) const SUITES: &str = "One of these; the number is its key's length in bytes:
chacha20-poly1305   32  (RFC 8439)
aes-128-gcm         16  (SP 800-38D)
aes-192-gcm         24
aes-256-gcm         32
aes-128-gcm-siv     16  (RFC 8452)
aes-256-gcm-siv     32";

pub(in crate::command) const KEY_LENGTH: &str = "The key, as long as the suite says. While the program
runs, every user of the machine can see it";

pub(in crate::command) const WRAP_KEY: &str = "The AES key: 16, 24 or 32 bytes. While the program
runs, every user of the machine can see it";

pub(in crate::command) const OUT_FILE: &str = "The file that is written: - is a file of that name,
and /dev/stdout is standard output";

// The end of the help of the program.
pub(in crate::command) const ABOUT_HEX: &str = "See aeadkit help COMMAND for each command. COMMAND.md is the manual.
HEX is an even number of hex digits of either case; an empty argument means no
bytes. Never use a nonce twice under one key.

A key on the command line is visible to every user of the machine while the
program runs, and a key that is typed there stays in the shell's history. Use
a machine of your own, and read the key into a variable:
  stty -echo; read -r key; stty echo

A fault is one line on standard error, 'aeadkit: NAME', and the status of the
program:
  Words          2  the arguments are not a command line of the program, or
                    not UTF-8. Likely causes: a variable in the place of a
                    value is not set and not quoted; an option is missing,
                    misspelt or given twice; a value begins with - (write
                    --text=VALUE); IN and OUT are one file
  UnknownSuite   2  the value of --suite is not the name of a suite
  BadHex         2  a value given for HEX is not an even number of hex digits
  KeyLength      2  the key is not as long as the suite says; for key wrap,
                    not 16, 24 or 32 bytes
  NonceLength    2  the nonce is not 12 bytes long
  TextTooLong    2  the text is longer than the suite or the padding allows
  AadTooLong     2  the associated data is longer than the suite allows
  WrapLength     2  not the length of a text that can be wrapped, or of a
                    wrapping
  TooShort       1  the sealed bytes are shorter than a tag, which is 16 bytes
                    long
  TagMismatch    1  authentication failed: not a valid sealing under this
                    suite, key, nonce and associated data
  WrapIntegrity  1  authentication failed: not a valid wrapping under this key
  Read           3  a file can't be opened or read, or it was truncated while
                    it was read
  Write          3  standard output failed, or OUT can't be created or written
  SourceChanged  3  a later reading of IN differs from an earlier one: IN was
                    changed meanwhile, or it is a pipe, which has no bytes
                    left
  OutOfMemory    4  an allocation failed
The faults of a vector file have status 1; aeadkit help check lists them.
Status 0 is success.";

pub(in crate::command) const SEAL_MORE: &str = "Prints the ciphertext, followed by the tag of 16 bytes, as one line of
lower-case hex digits. HEX is an even number of hex digits of either case.
--aad and --text are empty by default. Never use a nonce twice under one key:
a counter that is stored before it is used is the safest.

Example:
  aeadkit seal --suite chacha20-poly1305 --key \"$key\" \\
    --nonce \"$nonce\" --text 48656c6c6f

See also: aeadkit help open; aeadkit help seal-file; aeadkit help, for the
faults.";

pub(in crate::command) const OPEN_MORE: &str = "Prints the text as one line of lower-case hex digits, or nothing if
authentication fails. HEX is an even number of hex digits of either case.
--aad is empty by default.

Example:
  aeadkit open --suite chacha20-poly1305 --key \"$key\" \\
    --nonce \"$nonce\" --sealed \"$sealed\"

See also: aeadkit help open-file; aeadkit help, for the faults.";

pub(in crate::command) const WRAP_MORE: &str = "Prints the wrapping as one line of lower-case hex digits.
HEX is an even number of hex digits of either case.
The text is a multiple of 8 bytes long, at least 16 (RFC 3394); with --pad at
least 1 (RFC 5649).

Example:
  aeadkit wrap --key \"$wrapping_key\" --text \"$key\"

See also: aeadkit help unwrap; aeadkit help, for the faults.";

pub(in crate::command) const UNWRAP_MORE: &str = "Prints the text as one line of lower-case hex digits, or nothing if
authentication fails. HEX is an even number of hex digits of either case.
The wrapping is a multiple of 8 bytes long, at least 24 (RFC 3394); with --pad
16 (RFC 5649).

Example:
  key=$(aeadkit unwrap --key \"$wrapping_key\" --sealed \"$wrapped\")

See also: aeadkit help wrap; aeadkit help, for the faults.";

pub(in crate::command) const SEAL_FILE_MORE: &str =
    "Prints nothing. OUT will hold the ciphertext, followed by the tag of 16 bytes.
It is created or truncated when its first byte is written. Discard it unless
the status is 0.

The sealed file does not hold the suite, the nonce or the associated data:
store them beside it. Never use a nonce twice under one key: a counter that is
stored before it is used is the safest.

IN is read once, for AES-GCM-SIV twice. A pipe can't be read twice, and ends
with SourceChanged.
An OUT that is IN under another name is refused with Words, and IN stays.

To print into a file use a pipe, --out /dev/stdout | cat > FILE: /dev/stdout
truncates a file. The status is that of cat then, unless the shell's option
pipefail is set.
HEX is an even number of hex digits of either case. --aad is empty by default.

Example:
  aeadkit seal-file --suite chacha20-poly1305 --key \"$key\" \\
    --nonce \"$nonce\" --in letter.txt --out letter.sealed

See also: aeadkit help open-file; aeadkit help, for the faults.";

pub(in crate::command) const OPEN_FILE_MORE: &str =
    "Prints nothing. OUT will hold the text. It is created or truncated when its
first byte is written, after all of IN was authenticated. Discard it unless
the status is 0.

The suite, the key, the nonce and the associated data are those that the file
was sealed with.

IN is read three times. A pipe can't be, and ends with SourceChanged.
An OUT that is IN under another name is refused with Words, and IN stays.

To print into a file use a pipe, --out /dev/stdout | cat > FILE: /dev/stdout
truncates a file. The status is that of cat then, unless the shell's option
pipefail is set.
HEX is an even number of hex digits of either case. --aad is empty by default.

Example:
  aeadkit open-file --suite chacha20-poly1305 --key \"$key\" \\
    --nonce \"$nonce\" --in letter.sealed --out letter.txt

See also: aeadkit help seal-file; aeadkit help, for the faults.";

pub(in crate::command) const CHECK_MORE: &str =
    "Prints 'records N', and then 'bad K' for each record that disagrees with its
standard. The status is 0 if all agree, and 1 if a record is bad or the file
is not in the format. FILE may be /dev/stdin. A FILE that begins with -
follows --, as in aeadkit check -- -FILE.

Example:
  printf '%s\\n' 'format = 1' 'suite = aes-128-wrap' \\
    'key = 000102030405060708090a0b0c0d0e0f' \\
    'sealed = 1fa68b0a8112b447aef34bd8fb5a7b829d3e862371d2cfe5' \\
    'text = 00112233445566778899aabbccddeeff' > one.txt
  aeadkit check one.txt
prints records 1

A vector file has one of these faults if it is not in the format; all but
NoRecords name a line:
  BadFormat     the first line that is not blank or a comment is not format =
                1 or format = 2
  BadLine       a line of a record is not NAME = VALUE, or is blank or a
                comment
  WrongName     a line of a record has another name than is due there
  UnknownSuite  the suite is not one of the format
  BadHex        a value is not an even number of hex digits
  BadLength     the key is not as long as the suite says, or the nonce not 12
                bytes
  BadCuts       the cuts are not rising offsets within the text
  NoRecords     the file ends before its first record
  Unfinished    the file ends inside a record

See also: VECTOR-FILES.md, for the format; aeadkit help, for the other faults.";
