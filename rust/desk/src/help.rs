//! What `--help` prints.

pub const PROGRAM: &str = "\
fikrem: rate books and requests as text, quotes and refusals in plain words

  fikrem template book | request     a text to fill in
  fikrem pack TEXT FILE              packs a text into a rate book or a request
  fikrem show FILE                   the text of a rate book or a request
  fikrem quote BOOK REQUEST          prices a request by a rate book: the slip
  fikrem quote --page BOOK REQUEST   the same as the page that is posted
  fikrem quote --band LOW HIGH BOOK REQUEST
                                     lowest and highest charge for revenue between two figures
  fikrem COMMAND --help              more on a command
  fikrem --version                   the versions of the program and of the library's interface

Exit status: 0 done; 1 refused; 2 a wrong call, or a file that can't be read or written.
";

pub const TEMPLATE: &str = "\
fikrem template book
fikrem template request

Prints a text with every name, its unit, its limits and a value, ready to fill in; `fikrem pack` packs it. The two texts price as they stand.
";

pub const PACK: &str = "\
fikrem pack TEXT FILE

Packs a text into a rate book or a request. The text has a name and its value on each line, as spreadsheets export two columns (comma, semicolon or tab,
quotes), or as `name = value`. Blank lines and lines that start with # are left out. The line `file` says which of the two it is.

Money is in dollars, demand and capacity in kVA, shares and the discount rate in percent, factors are decimals, a month is written 2026-04. Nothing is
rounded: a figure with more decimals than its unit has is an error. Each error names the line, the name and what is allowed.

Zone numbers are 0 to 65535. They are packed in one byte each where every one is at most 255, otherwise in two. A line `zone number bytes = 2` packs
any of them in two bytes, `zone number bytes = 1` takes none above 255.

FILE is written only where the library takes every byte of it; until then what stood there stays.
";

pub const SHOW: &str = "\
fikrem show FILE

Prints the text that packs to the same bytes; of a file that the library refuses, the refusal in words, with field, value and offset. The line
`zone number bytes` is there only where zone numbers that fit one byte have two.
";

pub const QUOTE: &str = "\
fikrem quote [--page | --band LOW HIGH [LOW HIGH]] BOOK REQUEST

Prices a request by a rate book: prints what was read in a few lines, then the slip, in cents and whole percent, and last each percentage rounded down with
its remainder: 100 times the numerator is quotient times divisor plus remainder.

  --page                         the page alone, twelve lines in dollars, as it is posted
  --band LOW HIGH [LOW HIGH]     the lowest and the highest IR, CC and NC where year-one distribution revenue lies between two amounts of dollars, and
                                 transmission revenue between two more; without these transmission revenue is the request's

A refusal is told in words on standard error, and the exit status is 1.
";
