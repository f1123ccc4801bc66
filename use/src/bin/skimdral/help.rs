//! The help of the tool and of each command.

/// Of the tool.
pub const ALL: &str = "\
skimdral keys   --set N --seeds FILE --public FILE --secret FILE   make a key pair from three seeds
skimdral seal   --set N --secret FILE [--random FILE] MESSAGE SEAL seal a file
skimdral check  --set N --public FILE MESSAGE SEAL                 check a seal
skimdral part   --set N SEAL NUMBER [OUT]                          where a part of a seal lies, or the part
skimdral digits --set N VALUE-IN-HEX                               the chain digits of a value
skimdral try                                                       a tour with sample seeds and a sample file

N is 1 or shake-128s (short seals) or 2 or shake-128f (fast sealing). A file given as - is standard input or output.
An output is written whole or not at all; one that exists is kept unless --force is given.
Exit status: 0 done or accepted; 1 no such set; 2 wrong length of a seed, key, value or randomizer input; 3 message
above 65,536 bytes; 4 wrong length of a seal; 5 seal rejected; 6 no such part; 64 bad usage; 66 an input can't be
read; 70 the tour went astray; 73 an output can't be made.
`skimdral COMMAND --help` says more.
";

/// Of `keys`.
pub const KEYS: &str = "\
skimdral keys --set N --seeds FILE --public FILE --secret FILE [--force]

Makes a key pair. The file of seeds is secret seed, prf seed and public seed joined, 48 bytes for sets 1 and 2; draw
them at random. The secret key's file is readable by its owner alone, and is never standard output. If one of the two
files can't be made, neither is left behind.
";

/// Of `seal`.
pub const SEAL: &str = "\
skimdral seal --set N --secret FILE [--random FILE] [--force] MESSAGE SEAL

Writes the seal of the file MESSAGE, of at most 65,536 bytes, to SEAL. Bytes of --random (16 for sets 1 and 2) are
mixed into the seal's randomizer; without them the same key and message give the same seal.
";

/// Of `check`.
pub const CHECK: &str = "\
skimdral check --set N --public FILE MESSAGE SEAL

Says whether SEAL is a seal of MESSAGE under the public key, and how many F calls the check made. The exit status is 0
if it is accepted and 5 if it is rejected.
";

/// Of `part`.
pub const PART: &str = "\
skimdral part --set N SEAL NUMBER [--force] [OUT]

Prints where a part of the seal starts and how long it is, or writes the part to OUT. Part 0 is the randomizer, 1 the
forest, 2 + j layer j.
";

/// Of `digits`.
pub const DIGITS: &str = "\
skimdral digits --set N VALUE-IN-HEX

Prints the chain digits of a value of n bytes (16 for sets 1 and 2), checksum digits last.
";

/// Of `try`.
pub const TRY: &str = "\
skimdral try

Makes a key pair from sample seeds, seals a sample file of observations, checks it, and then checks what was tampered
with. Shows what each step answered, and leaves nothing behind. The exit status is 0 if all went as it must.
";
