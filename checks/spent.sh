#!/bin/sh
# A held transaction, and work in a store and at a bank, that are spent: the borrow check refuses a write with each,
# and beginning again mends it. Run at the top of the repository; all is done in a scratch copy.
set -eu

[ -f crates.txt ] || { echo "spent: not at the top of the repository" >&2; exit 2; }
scratch=$(mktemp -d)
trap 'rm -rf "$scratch"' EXIT
trap 'exit 2' HUP INT TERM
bad=0

tar -cf - --exclude=out crates crates.txt | tar -xf - -C "$scratch"

# Checks a crate of the scratch copy, and keeps what is said in its log.
try() { # CRATE
    (cd "$scratch/crates/$1" && rt check) >"$scratch/log" 2>&1
}

# Prints what was expected and whether it came; shows the end of the log where it did not.
say() { # ok|BAD SENTENCE
    echo "spent: $1: $2"
    [ "$1" = ok ] || { bad=1; tail -n 20 "$scratch/log"; }
}

# The crate must be stopped by the borrow check, and by nothing else: VALUE is used after it was moved.
refused() { # CRATE VALUE SENTENCE
    if try "$1"; then say BAD "$3"
    elif [ "$(grep -c ': error' "$scratch/log")" = 1 ] &&
        grep -q "src/.*: error\[borrow-e0382\]: borrow of moved value: \`$2\`" "$scratch/log"; then say ok "$3"
    else say BAD "$3"
    fi
}

# The crate must be proved.
proved() { # CRATE SENTENCE
    if try "$1" && grep -q '^logic=proved' "$scratch/log"; then say ok "$2"; else say BAD "$2"; fi
}

# The client program, with a write behind its commit, and FIRST in front of that write.
client() { # FIRST
    FIRST=$1 awk '
        $0 == "        Ok(verdict) => Ok(verdict)," {
            found++
            print "        Ok(verdict) => {"
            print "            " ENVIRON["FIRST"]
            print "            let _ = held.write(board, 0, 1);"
            print "            let _ = held.give_up(board);"
            print "            Ok(verdict)"
            print "        }"
            next
        }
        { print }
        END { exit found != 1 }' crates/shop_day/src/job.rt >"$scratch/crates/shop_day/src/job.rt" ||
        { echo "spent: BAD: the line behind the commit is not in shop_day once" >&2; exit 1; }
}

# A library of its own that writes with work behind its commit, with FIRST in front of that write: KIND is Store or Bank, and
# names the interface, the fault and the crate (in small letters, and with an s behind it).
mkdir -p "$scratch/crates/spent_work/src"
echo 'spent_work: banks stores tickets' >>"$scratch/crates.txt"
work() { # KIND FIRST
    library=$(echo "$1s" | tr '[:upper:]' '[:lower:]')
    cat >"$scratch/crates/spent_work/src/lib.rt" <<RATTLE
#![tactic(auto)]

use $library::{$1, ${1}Fault, Unfinished, Work};

pub fn commit_and_write<S: $1>(here: &mut S, work: Work) -> Result<(), ${1}Fault> {
    match work.commit(here) {
        Ok(_) => {
            $2
            let _ = work.write(here, 0, 1);
            work.abort(here)
        }
        Err(Unfinished::Ended(fault)) => Err(fault),
        Err(Unfinished::Back(back, fault)) => {
            let _ = back.abort(here);
            Err(fault)
        }
    }
}
RATTLE
}

client ''
refused shop_day held 'a write with a committed transaction is refused (E0382)'
client 'let held = Held::begin(board, 0)?;'
proved shop_day 'a write behind another begin of a transaction is proved'
for kind in Store Bank; do
    case $kind in Store) begin='begin(here, 0)' ;; *) begin='begin(here, 0, 0)' ;; esac
    work "$kind" ''
    refused spent_work work "$kind: a write to committed work is refused (E0382)"
    work "$kind" "let work = Work::$begin?;"
    proved spent_work "$kind: a write behind another begin of work is proved"
done
exit "$bad"
