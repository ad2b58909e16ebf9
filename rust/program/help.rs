//! What the program says where it is asked for help.

pub const HELP: &str = "\
usage: ccr WORD [OPTIONS] [FILE ..]          where no file is named, standard input is read

  check     is it a wiring? writes its canonical text                  --json
  run       runs a wiring, writes its history and a report             --workers N, --schedule, --json
  verify    judges a wiring with an output of run behind it
  load      runs a generated wiring, writes the totals                 --workers N, --size N, --json
  record    runs a wiring, writes whose turn it was, step by step      --workers N
  replay    runs a record again, writes its history and a report
  steps     runs a record again, writes each step
  steady    writes the totals of a wiring, where they don't depend on who comes first
  service   runs a service, writes what became of each request         --workers N
  expand    writes the wiring that a service stands for

  ccr run --workers 0 examples/first.ccr                   on one thread: the same output each time
  ccr run --workers 4 < examples/service.ccr > out.txt     on threads: one of many legal outputs
  ccr verify examples/service.ccr out.txt                  is it legal, complete, quiet?

--workers is 0 to 16 (4; for load 0), --size 1 to 10,000 (1,000). Standard output ends with 'done N', and N is the exit status: 0 all is well, 1 other
words are due, 2 the text is refused, 6 a task was shed, 7 the output is wrong, 8 the text is too long (docs/FORMATS.md, What the program writes).
";
