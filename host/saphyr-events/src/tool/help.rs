//! What `--help` and `--version` print.

pub const VERSION: &str = concat!(
    "saphyr-events ",
    env!("CARGO_PKG_VERSION"),
    " (scanner and event machine of saphyr-parser 0.3.3; the machine is proved)\n"
);

pub const ALL: &str = "\
The events of a YAML file, by the scanner of saphyr-parser 0.3.3 and the proved event machine.

  saphyr-events events FILE    one event a line
  saphyr-events tokens FILE    the token list that the machine is given
  saphyr-events rooms FILE     the number of tokens and the memory to lend for them
  saphyr-events COMMAND --help
  saphyr-events --version

FILE is a name, or - for standard input. Exit code: 0; 1 if the text is refused; 2 for wrong words, a
file that cannot be read, or a build without the proved library.
";

pub const EVENTS: &str = "\
saphyr-events events [--spans] [--json] [--keep-anchors | --forget] [--keep-tags] FILE

Prints one event a line:

  +STR -STR                a stream begins, ends
  +DOC --- or +DOC, -DOC   a document: with --- or without
  +MAP -MAP +SEQ -SEQ      a mapping, a sequence
  =VAL :text               a plain scalar; \"text double-quoted, 'text single-quoted, |text literal, >text folded
  =ALI *1                  an alias of the first anchor of the stream

A node with an anchor has &1 (anchors are numbered over the whole stream), one with a tag <tag> behind it.
In texts \\\\ is a backslash, \\n \\r \\t \\b \\0 \\xNN \\uNNNN are control characters.

  --spans          line:column-line:column before each event, both from 1, in characters
  --json           one JSON object a line instead
  --forget         an alias takes anchors of its own document only (this is the default)
  --keep-anchors   an alias may take an anchor of an earlier document
  --keep-tags      %TAG directives hold beyond their document

A refusal is said on standard error, with its number, its place and the line of the file; the events
before it are printed. Exit code 1.
";

pub const TOKENS: &str = "\
saphyr-events tokens [--spans] FILE

Prints the token list, one token a line: its kind, its positions in characters from 0, its texts, and
the style of a scalar.

  --spans   line:column-line:column before each token, both from 1, in characters
";

pub const ROOMS: &str = "\
saphyr-events rooms FILE

Prints the number of tokens and the bytes to lend, with which the machine never runs short, whatever
the tokens are.
";
