//! What the program says of its use.

/// The commands, in the order of the help.
pub const COMMANDS: [&str; 13] = [
    "list", "model", "plan", "first", "split", "prices", "check", "draw", "cuts", "labels", "jobs",
    "panel", "explain",
];

/// The whole use, for `office --help`.
pub const HELP: &str = "\
office: from a job to a plan for the beam saw, and from the saw's answer to drawings.

  office list JOB [--csv WHICH]     list plate types and cuts with their numbers
  office model [--mps] JOB          write the job's one-cut model as an LP file, or as an MPS file
  office plan JOB SOLUTION          write the saw's text: the job and a solver's plan
  office first JOB                  the same with a plan that needs no solver
  office split JOB [FOLDER]         say what makes a job too large, which mode takes it, and part it
  office prices TEXT [SOLUTION]     write the text with prices from a solver's dual prices
                                    (without SOLUTION: prices by area)
  office check [TEXT] OUTPUT        end with status 0 if the saw accepted, 1 if it refused, 2 if
                                    OUTPUT is no answer
  office draw JOB OUTPUT FOLDER [FIRST SECOND]
                                    draw the saw's output: a picture of each pattern, and boards.html
                                    (FIRST, SECOND: from which width and height an offcut is usable)
  office cuts JOB OUTPUT [--csv] [FIRST SECOND]
                                    write the operator's cut list of each pattern
  office labels JOB OUTPUT          write a row for each piece: its name, sides, board and place
  office jobs DATA FOLDER [BLADE [LEAVE]]
                                    write the jobs of a file of instances, as in data/
  office panel FOLDER               write the operator's card, docs/PANEL.md, for A4: HTML and PDF
  office explain TEXT OUTPUT        say in words why the saw refused the text
  office explain TEXT NUMBER PLACE  the same, from the two numbers at the panel
  office --help                     this page; office COMMAND --help says more of a command
  office --version                  the version

Files are texts as docs/FORMAT.md says; - stands for standard input. JOB is lines 1, 10 and
2: line 1 ends with the width of the blade, a line 10 is a board size with its cost. A whole text for the
saw or the fold program serves too, so that lines of kinds 3 to 7 may follow, and nothing else may. Or JOB
is a table with names (CSV): rows mode, blade and size, a row that names the columns name, width, height,
demand, turn, and a row for each item. Blank lines, lines that begin with # and a byte order mark say
nothing. Results go to standard output, but for what is written to a FOLDER.
";

/// The use of one command, if there is such a command.
pub fn of_command(command: &str) -> Option<&'static str> {
    Some(match command {
        "list" => LIST,
        "model" => MODEL,
        "plan" => PLAN,
        "first" => FIRST,
        "split" => SPLIT,
        "prices" => PRICES,
        "check" => CHECK,
        "draw" => DRAW,
        "cuts" => CUTS,
        "labels" => LABELS,
        "jobs" => JOBS,
        "panel" => PANEL,
        "explain" => EXPLAIN,
        _ => return None,
    })
}

const LIST: &str = "\
office list JOB [--csv plates | --csv cuts]

Lists the plate types of a job (number, width, height, stage, the cost of a board size, the first and
the last cut on it) and its cuts (number, plate type, item type, turn, the item's sides as it lies, the
plate types that are kept of its top and its right, 0 for none), as the saw numbers them. With --csv one
of the two, as CSV. A solver whose plan is refused with 8 or 20 is compared with it, plate type by plate
type.

  office list job.txt
  office list job.txt --csv plates > plates.csv
";

const MODEL: &str = "\
office model [--mps] JOB

Writes the one-cut model of a job in CPLEX LP format, which GLPK, CBC, HiGHS, SYMPHONY, SCIP, Gurobi and
CPLEX read, or with --mps in free MPS format, which lp_solve reads too. Column size_J counts the boards of
size J, column x_P_I_T the cut of item type I from plate type P, turned if T is 1; rows are item_I,
boards_J, plate_P, pieces; the objective is the cost of the boards. Comments list the plate types: number,
width, height, stage, and of the board sizes, which come first, the cost.

  office model job.txt > job.lp
  glpsol --lp job.lp -o job.sol          or: cbc job.lp solve solution job.sol
  office model --mps job.txt > job.mps
  lp_solve -fmps job.mps -S3 > job.sol
";

const PLAN: &str = "\
office plan JOB SOLUTION

Writes the job and the plan of a solution as the saw's text; each line of the plan shows its plate's
width, height and stage, as the model lists them. The plan is tested first. SOLUTION is
GLPK's (glpsol -o or -w), CBC's (solution), HiGHS's in any of its styles, CPLEX's, or lines of a name and
a value, with or without = between them (lp_solve, SYMPHONY, SCIP, Gurobi, QSopt_ex).
Where it says that the solver was stopped, the plan is written, and a warning with the solver's status.

  office plan job.txt job.sol > plan.txt
";

const FIRST: &str = "\
office first JOB

Writes the job and a plan as the saw's text without a solver: strips are filled one after another, highest
items first, each board of the size that has most items for its cost. It is a plan to begin with, and
seldom the cheapest.

  office first job.csv > plan.txt && saw < plan.txt > output.txt
";

const SPLIT: &str = "\
office split JOB [FOLDER]

Helps with a job that the saw refuses with 4, 6 or 7. Says how many plate types and cuts the job has in
each mode, how many jobs the saw needs for it and what first plans for these cost; which item types make it
large; and into which jobs it can be parted in its own mode. With FOLDER these are written as tables,
job-1.csv and so on, never over a table that is no such part, and parts of an earlier use that are not
written over are removed.

  office split examples/cabinets.csv parts
";

const PRICES: &str = "\
office prices TEXT [SOLUTION]

Writes the job and plan of TEXT with prices that the saw accepts. SOLUTION must hold dual prices, so
it is the relaxation's:

  glpsol --lp job.lp --nomip -o dual.sol
  cbc job.lp initialSolve printingOptions all solution dual.sol
  lp_solve -fmps job.mps -noint -S4 > dual.sol
  office prices plan.txt dual.sol > priced.txt

Without SOLUTION each item's price is its share, by area, of the cost of the size that gives most area for
its cost, sides taken with the blade or, where that bound is higher, without it. Price lines of TEXT are
replaced.
";

const CHECK: &str = "\
office check [TEXT] OUTPUT

Says whether OUTPUT, what the saw or the fold program wrote, is an answer, by the exit status; the
programs themselves end with 0 also where they refuse.

  0  accepted: lines 7 in turn and a line 8, or the fold program's lines 3
  1  refused: one line 9; with TEXT, the text that was sent, in words, as office explain says it
  2  no answer: empty, cut short, no line 8 or one that contradicts itself, not in the columns of a
     line; with TEXT also boards or a plan for another text; or a file that cannot be read

  saw < priced.txt > output.txt
  office check priced.txt output.txt && office draw job.txt output.txt boards
";

const DRAW: &str = "\
office draw JOB OUTPUT FOLDER [FIRST SECOND]

Draws the saw's output: pattern-1.svg, pattern-2.svg and so on, all to one scale, and boards.html with
all of them, their pieces and their cut lists, made to be printed on A4. Boards of one size that are
laid out alike are one pattern, drawn once. An earlier drawing in FOLDER is replaced; other files stay.
The terminal and the page give the totals: boards, cost, yield, offcuts, waste and swath in per cent,
boards of each size, pieces of each type against the demand. The swath, which the blade takes between
pieces, is drawn to scale as brown bands. Offcuts are shaded and have their sides; those whose width is
at least FIRST and whose height is at least SECOND (each 1 to 10,000; 1 and 1 if not given, so that all
are) are usable: they are drawn darker, and boards.html counts them by size.

  saw < priced.txt > output.txt
  office draw job.txt output.txt boards 300 200
";

const CUTS: &str = "\
office cuts JOB OUTPUT [--csv] [FIRST SECOND]

Writes the operator's cut list of each pattern of the saw's output, after the totals: the strip cuts from
the bottom, then in each strip the stack cuts from the left, then in each stack item cuts and trims. A cut
is given with strip.stack.place, its position and what it gives. The position is the edge of what is cut
off, in mm across (x) or upwards (y) from the board's lower left corner; the blade runs beyond it. What is
left needs no cut; an offcut of 5 × 2 of 5 × 6 is the part of the piece in hand that the plan counts as
one. FIRST and SECOND are as for office draw. With --csv a row for each step, the length of the cut and the
sides of the piece in hand among its columns.

  office cuts job.txt output.txt > cuts.txt
";

const LABELS: &str = "\
office labels JOB OUTPUT

Writes a table (CSV) of all pieces that the saw places, in the order in which they are cut: name, type,
width, height, whether it lies turned, board, its size, strip, stack, place, x, y. Names are those of JOB,
if it is a table with names.

  office labels job.csv output.txt > labels.csv
";

const JOBS: &str = "\
office jobs DATA FOLDER [BLADE [LEAVE]]

Writes the jobs of a file of instances, as in data/, as NAME.BOARD.MODE.job: each instance on each of its
boards at a cost of 1 and, if these are two to six, on all of them at a cost by area, times the cost per
unit of area where the file gives one, in each mode. A board that some item does not fit is left out.
BLADE is the width of the blade (0 if not given), LEAVE 1 if the items may be turned (else 0). Names of
instances become names of files, so that two that are equal, or one with a slash, are refused. A file of
jobs, as in data/limits, has its own modes, blades and sizes.

  office jobs data/002-table-1.txt jobs 4 1
";

const PANEL: &str = "\
office panel FOLDER

Writes the operator's card, docs/PANEL.md, on one A4 page: panel.html and panel.pdf.

  office panel card && lpr card/panel.pdf
";

const EXPLAIN: &str = "\
office explain TEXT OUTPUT
office explain TEXT NUMBER PLACE

Says in words which rule a line 9 names, which line or type breaks it, and what to change. TEXT is
the text that was sent to the saw or to the fold program, OUTPUT what came back; NUMBER and PLACE are
the two numbers at the panel.
";
