//! The texts of `--help`.

pub const GENERAL: &str = "\
hurkeztor judges reorderings of loop nests.

  hurkeztor judge  [FILE]        whether the new order is accepted
  hurkeztor why    [FILE]        which pairs trade places, where the new order is refused with 10
  hurkeztor write  [FILE]        the new nest
  hurkeztor list   [FILE]        the directions of the ticket's nest
  hurkeztor quick  A B [FILE]    whether accesses A and B are apart
  hurkeztor run    [FILE]        the arrays after the nest has run in its new order
  hurkeztor show   [FILE]        the ticket and its new nest side by side
  hurkeztor pack   [FILE]        a binary ticket from any form
  hurkeztor unpack [FILE]        the text form, or words, from any form
  hurkeztor draw   [FILE]        a picture (SVG) of the iterations before and after

'hurkeztor VERB --help' says more of each. --version prints the version.

A ticket is read from FILE, or from standard input where FILE is '-' or missing, in one of
three forms, which is found out ('--as binary', '--as words' and '--as text' tell it):

  binary   16-bit words, little-endian
  words    the same words in decimal, parted by blanks; '#' starts a comment
  text     as below: arrays, loops, statements, steps

    # first echo folded into bins
    array A(4)
    array B(2, 3)

    for i = 0 to 1
      for j = 0 to 2
        A(i+j) = B(i, j)

    exchange 1 2

  Limits       for j = max(0, i/2) to min(3, (2*i+1)/3)    rounded up below, down above
  Statements   A(i) = B(i)               A(i) = B(i) + C(i) + 5    A(i) = max(B(i), 5)
               A(i) = opaque(B(i))       A(i) = first(B(i), C(i))
  Steps        exchange 1 2    reverse 1    skew 1 2 by -1    section 1 by 4
               move 1 to 3               loop 1 goes to place 3, and those between close up

The answer is one plain line: 'accepted: 6 iterations', or 'refused 10 at step 1, out of order'
with the place in the user's own text below it.

Exit status: 0 accepted, 1 refused, 2 bad usage or an input that is no ticket.
";

const JUDGE: &str = "\
hurkeztor judge [--as binary|words|text] [FILE]

Judges a ticket: whether every array ends the same when the loops run in the new order. Prints
'accepted: N iterations', or 'refused N at PLACE, WORD' and below it what that means. A refusal
with 10 has a note: the first pair that trades places, and how its indices compare before the
refused step and after it.

Exit status: 0 accepted, 1 refused, 2 bad usage or an input that is no ticket.
";

const WHY: &str = "\
hurkeztor why [--as binary|words|text] [--most N] [FILE]

Tells the true reason of a refusal with 10: every conflicting pair that trades places at the refused
step. Below the refusal stands how many pairs do, and then each pair with the element that both use,
the earlier first:

  A(1): written at (0, 1), then at (1, 0)

says that A(1) is written in iteration (0, 1) and again in (1, 0), and that in the new order (1, 0)
would come first. Iterations have the ticket's own indices, outermost first. Where the body has
several statements, they are named too. Two instances that conflict in several ways are a pair for
each. 'by the table alone: no pair trades places' says that the signs do not show the step to be in
order, and that it harms nothing here.

  --most N   print at most N pairs (20); '(+5 more)' says how many are left out

Any other answer is that of 'judge'.

Exit status: 0 accepted, 1 refused, 2 bad usage or an input that is no ticket.
";

const WRITE: &str = "\
hurkeztor write [--as binary|words|text] [-o FILE] [--as-text|--as-words|--as-binary] [FILE]

Writes the new nest: the ticket's own after its steps. It has no steps left, and is a ticket again
unless it has more than 4 loops or 4 limits on one side of a loop.

  -o FILE       write to FILE instead of standard output
  --as-text     in the text form
  --as-words    as decimal words
  --as-binary   as a binary ticket

Without one of these, the new nest has the form of the input, except that a binary one is written
as text to a terminal. 'accepted' or 'refused' is said on standard error, or on standard output
with -o.

Exit status: 0 accepted, 1 refused (nothing is written), 2 bad usage or an input that is no ticket.
";

const LIST: &str = "\
hurkeztor list [--as binary|words|text] [--explain] [FILE]

Lists the directions of the ticket's own nest. The first line has the counts of loops, iterations
and lines. Each line after it has a kind, the source statement, the sink statement and a vector:

  F   written, then read       <   the source's index is smaller
  A   read, then written       =   they are equal
  O   written twice            >   the source's index is greater

  --explain   a sentence below each line

Exit status: 0 listed, 1 refused, 2 bad usage or an input that is no ticket.
";

const QUICK: &str = "\
hurkeztor quick [--as binary|words|text] A B [FILE]

Tests two accesses, subscript by subscript. 'apart' says that they never name one element,
'perhaps' that the test does not tell. Accesses are numbered from 1 in the ticket's order: each
statement's write, then its reads.

Exit status: 0 answered, 1 refused, 2 bad usage or an input that is no ticket.
";

const RUN: &str = "\
hurkeztor run [--as binary|words|text] [--store FILE | --fill SEED] [--before] [FILE]

Runs the nest in its new order and prints the arrays after it. Elements are 32-bit words.

  --store FILE   the elements before, in decimal: arrays in the ticket's order, last subscript
                 fastest; '#' starts a comment; as many as the arrays have
  --fill SEED    elements that look random, the same for the same seed
  --before       print the arrays before, too

Without --store and --fill all elements are 0 before.

Exit status: 0 run, 1 refused (nothing is run), 2 bad usage or an input that is no ticket.
";

const SHOW: &str = "\
hurkeztor show [--as binary|words|text] [FILE]

Prints the ticket and its new nest side by side in the text form. Where the ticket is refused, the
refusal stands in place of the new nest, and '>' marks its place in the ticket.

Exit status: 0 accepted, 1 refused, 2 bad usage or an input that is no ticket.
";

const PACK: &str = "\
hurkeztor pack [--as binary|words|text] [-o FILE] [FILE]

Makes a binary ticket from any form. Nothing is judged.

  -o FILE   write to FILE instead of standard output

Exit status: 0 packed, 2 bad usage or an input that is no ticket.
";

const UNPACK: &str = "\
hurkeztor unpack [--as binary|words|text] [-o FILE] [--as-text|--as-words] [FILE]

Prints a ticket of any form in the text form, or as decimal words. A written nest will do, too.

  -o FILE      write to FILE instead of standard output
  --as-words   decimal words instead of the text form

A ticket that describes no nest has no text form: it is judged, and the refusal says why.

Exit status: 0 unpacked, 1 refused, 2 bad usage or an input that is no ticket.
";

const DRAW: &str = "\
hurkeztor draw [--as binary|words|text] [-o FILE.svg] [FILE]

Draws the iterations of the two outermost loops before and after the steps, as an SVG. Where a step
is refused, 'after' is after that step.

  points   the iterations, numbered in the old order; a line through them is the order of execution
  arrows   pairs of iterations that use one element, at least one writing it, the earlier first;
           red ones trade places in the new order: the pairs of 'why'

  -o FILE   write to FILE instead of standard output

The answer in the caption is the judge's. A ticket that is refused with a number from 1 to 9 has no
picture. Deeper loops are projected onto the two outermost ones; large nests are drawn in part, and
the caption says so.

Exit status: 0 accepted, 1 refused (10 to 13: the picture is written nevertheless), 2 bad usage or an
input that is no ticket.
";

/// The help of a verb.
pub fn of(verb: &str) -> &'static str {
    match verb {
        "judge" => JUDGE,
        "why" => WHY,
        "write" => WRITE,
        "list" => LIST,
        "quick" => QUICK,
        "run" => RUN,
        "show" => SHOW,
        "pack" => PACK,
        "unpack" => UNPACK,
        "draw" => DRAW,
        _ => GENERAL,
    }
}
