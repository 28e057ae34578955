//! What `--help` says.

const WHOLE: &str = "\
gelumbrio composes Japanese dose notes and aftercare leaflets, and keeps them in sheets.

A leaflet:
  gelumbrio compose LEAFLET        its lines, in the terminal or as a picture
A sheet, which clinics share, in a file:
  gelumbrio sheet new FILE         makes one
  gelumbrio sheet check FILE       lists its slots, and finds damage
  gelumbrio take FILE              a clinic takes its lowest free slot
  gelumbrio give FILE              a clinic gives a slot back, which empties it
  gelumbrio import FILE LEAFLET    puts a leaflet into a slot
  gelumbrio edit FILE [LEAFLET]    deletes characters of a slot, and puts in a leaflet's
  gelumbrio show FILE              a slot's lines, in the terminal or as a picture

  gelumbrio COMMAND --help         tells more of a command
  gelumbrio --version

A leaflet is UTF-8 text on one line, with ruby: <ruby>食後<rt>しょくご</rt></ruby>に1錠。
The exit status is 0, 1 where something is refused, and 2 for wrong usage. What is refused changes nothing.

Examples:
  gelumbrio compose examples/dose.html --chars 22 --indent 1 --svg dose.svg
  gelumbrio sheet new ward.sheet --slot 7:22:1 --slot 9:30:0
  gelumbrio take ward.sheet --clinic 7
  gelumbrio import ward.sheet --clinic 7 --slot 0 examples/dose.html
";

const COMPOSE: &str = "\
gelumbrio compose LEAFLET (--chars N | --measure N) [--indent N] [--size N]
                  [--svg FILE] [--html FILE] [--marks] [--json]

Composes a leaflet and shows its lines. LEAFLET is a file, or - for standard input; the end of its last line is no part
of it. A terminal's column is half a character, and marks that are half as wide take two, so a line with many of them
looks longer there than in the picture.

  --chars N       how long a line is, in characters
  --measure N     the same in units; a character has as many as its size
  --indent N      where the first line starts: in characters with --chars, in units with --measure. 1c is one character
                  with either, and 80u are 80 units. Without it, 0
  --size N        how large a character is: a multiple of 8, from 8 to 4,000. Without it, 80
";

const COMPOSE_EXAMPLES: &str = "
Examples:
  gelumbrio compose examples/dose.html --chars 22 --indent 1
  gelumbrio compose examples/aftercare.html --measure 1480 --indent 40 --svg aftercare.svg --marks
  echo '1日3回、食後に。' | gelumbrio compose - --chars 5
";

const SHOWN: &str = "\
  --svg FILE      writes a picture that browsers show
  --html FILE     writes a page with the picture
  --marks         shows line numbers, kinds of lines and gaps too; of gaps, a terminal shows those that it has room for
  --json          says records, places, lines and ruby as JSON, in place of the lines
";

const CHANGED: &str = "
It waits while another program changes the sheet. The file is replaced whole: a program that is stopped in the middle
leaves the sheet as it was, or changed.
";

const NEW: &str = "\
gelumbrio sheet new FILE --slot CLINIC:CHARACTERS:INDENT [--slot ..] [--size N]

Makes a sheet in a file that is not there yet. Each --slot is a slot of it, numbered from 0: whose it is, how many
characters a line of it has, and how many its first line starts in. 1760u are 1,760 units. 64 slots are the most.

  --size N        how large a character is, to tell how long a line is. Without it, 80

Examples:
  gelumbrio sheet new ward.sheet --slot 7:22:1 --slot 9:30:0
  gelumbrio sheet new ward.sheet --slot 7:1760u:40u
";

const CHECK: &str = "\
gelumbrio sheet check FILE

Lists the slots of a sheet, and finds those whose words are not what the rules give.

Example:
  gelumbrio sheet check ward.sheet
";

const TAKE: &str = "\
gelumbrio take FILE --clinic N

Takes the clinic's lowest-numbered slot that is not in use, and says which it is.
";

const TAKE_EXAMPLES: &str = "
Example:
  gelumbrio take ward.sheet --clinic 7
";

const GIVE: &str = "\
gelumbrio give FILE --clinic N --slot N

Gives a slot of the clinic's back. It is emptied, and can be taken again.
";

const GIVE_EXAMPLES: &str = "
Example:
  gelumbrio give ward.sheet --clinic 7 --slot 0
";

const IMPORT: &str = "\
gelumbrio import FILE --clinic N --slot N LEAFLET [--size N]

Puts a leaflet in place of all that the slot holds, and composes it. LEAFLET is a file, or - for standard input.

  --size N        how large a character is: a multiple of 8, from 8 to 4,000. Without it, 80
";

const IMPORT_EXAMPLES: &str = "
Example:
  gelumbrio import ward.sheet --clinic 7 --slot 0 examples/dose.html
";

const EDIT: &str = "\
gelumbrio edit FILE --clinic N --slot N --at N [--delete N] [LEAFLET] [--size N]

Deletes characters of a slot, puts in there what a leaflet reads as, and composes the slot. Characters are counted from
0; those of rt and rp do not count. `gelumbrio show --marks` tells the number of each line's first.

  --at N          where
  --delete N      how many are deleted. Without it, 0
  --size N        how large the new characters are. Without it, as the one before them
";

const EDIT_EXAMPLES: &str = "
Examples:
  echo '3' | gelumbrio edit ward.sheet --clinic 7 --slot 0 --at 3 --delete 1 -
  gelumbrio edit ward.sheet --clinic 7 --slot 0 --at 3 --delete 2
";

const SHOW: &str = "\
gelumbrio show FILE --clinic N --slot N [--leaflet LEAFLET] [--svg FILE] [--html FILE] [--marks] [--json]

Shows a slot of the clinic's. A sheet keeps how many ruby characters there are, and not which: where they stand is
marked, unless the leaflet is named that they come from.

  --leaflet LEAFLET  the leaflet that the slot holds
";

const SHOW_EXAMPLES: &str = "
Examples:
  gelumbrio show ward.sheet --clinic 7 --slot 0
  gelumbrio show ward.sheet --clinic 7 --slot 0 --leaflet examples/dose.html --svg dose.svg
";

/// The help for all commands.
pub fn whole() -> String {
    WHOLE.to_string()
}

/// The help for the commands of this name, or of which it is the first word; none where there is no such command.
pub fn of(command: &str) -> Option<String> {
    let parts: &[&str] = match command {
        "compose" => &[COMPOSE, SHOWN, COMPOSE_EXAMPLES],
        "sheet" => &[NEW, "\n", CHECK],
        "sheet new" => &[NEW],
        "sheet check" => &[CHECK],
        "take" => &[TAKE, CHANGED, TAKE_EXAMPLES],
        "give" => &[GIVE, CHANGED, GIVE_EXAMPLES],
        "import" => &[IMPORT, CHANGED, IMPORT_EXAMPLES],
        "edit" => &[EDIT, CHANGED, EDIT_EXAMPLES],
        "show" => &[SHOW, SHOWN, SHOW_EXAMPLES],
        _ => return None,
    };
    Some(parts.concat())
}
