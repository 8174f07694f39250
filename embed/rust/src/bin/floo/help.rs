//! What `--help` and `--version` print. `docs/floo.1` says the same at length.

pub const TEXT: &str = "\
floo: runs Floo 0.5 scripts by the proved runner

    floo [OPTION ..] FILE                            run the script in FILE (- is standard input); its log goes to standard output
    floo scan [OPTION ..] SCRIPT BOOK [LABEL ..]     take labels apart by SCRIPT, and enter them in the ledger BOOK
    floo forf [--fuel N] FILE                        run the Forf script in FILE with a memory of zeros; its outcome goes to standard output
    floo [OPTION ..]                                 on a terminal, a prompt; else as with -

What is shown in place of a plain run:
    --outcome       after the log, the outcome's lines
    --tokens        the tokens, without a run
    --steps A..B    the stack, the next token and the held cells after A steps, A + 1 steps, up to B
    --room          the least size of each part with which the run is the same
    --prompt        the prompt, wherever the lines come from

The room for a run, and what it may be:
    --fuel N        steps              up to 1000000   (1000000)
    --stack N       slots              8 to 256        (256)
    --exec N        execution slots    4 to 128        (128)
    --dictionary N  names              65 to 512       (512)
    --cells N       cells for objects  1 to 32768      (4096)
    --log N         bytes of the log   up to 65536     (8192)

Of a scan:
    --new           begin BOOK, which must not be there yet
    Without a LABEL each line of standard input is one.

    --help, --version

Errors go to standard error as FILE:LINE:COLUMN: ERROR in OPERATOR.
Exit status: 0 finished, 1 error, 2 refused or no run made, 3 fuel spent, 4 stopped.
";

pub fn version() -> String {
    format!("floo {}, for Floo 0.5\n", env!("CARGO_PKG_VERSION"))
}
