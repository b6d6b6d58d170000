#!/bin/bash
# Asks each shell that is here what it completes, and compares it with what is owed: bash, zsh and fish.
# The last line counts; the status is 1 if a shell completed anything else. A shell that is not here is named.
completions=$(realpath "$(dirname "$0")/../completions")
folder=$(mktemp -d)
trap 'rm -rf "$folder"' EXIT
cd "$folder" || exit 1
: > registry.txt
passed=0
failed=0

# is NAME WANTED: compares what the standard input has, line by line and sorted, with these words.
is() {
    local got
    got=$(sort | tr '\n' ' ')
    if [ "$got" = "$2 " ]; then
        passed=$((passed + 1))
    else
        failed=$((failed + 1))
        echo "failed: $1: $got"
    fi
}

# by_bash WORD..: what bash offers for the last of these words.
by_bash() {
    bash -c 'source "$0/langtag.bash"; COMP_WORDS=("$@"); COMP_CWORD=$(($# - 1)); _langtag 2> /dev/null; printf "%s\n" "${COMPREPLY[@]}"' \
        "$completions" "$@"
}

# by_fish LINE: what fish offers for a command line.
by_fish() {
    fish --no-config -c "source $completions/langtag.fish; complete -C '$1'" | cut -f 1
}

# by_zsh LINE: what zsh offers for a command line.
by_zsh() {
    zsh -f -c '
        zmodload zsh/zpty
        zpty shell "TERM=dumb zsh -f -i"
        zpty -w shell "PS1=; unsetopt zle_bracketed_paste 2> /dev/null; fpath=($1 \$fpath); autoload -U compinit; compinit -u -D; zstyle \":completion:*\" list-colors \"\"; LISTMAX=0; bindkey \"^I\" list-choices; echo be\"\"gin"
        zpty -r shell line "*begin*"
        zpty -w -n shell "$2"$'"'\t'"'
        sleep 2
        while zpty -r -t shell line; do print -rn -- "$line"; done
        zpty -d shell
    ' zsh "$completions" "$1" 2> /dev/null
}

is 'bash: a command' 'canon check classify codes csv' < <(by_bash langtag c)
is 'bash: a file' 'registry.txt' < <(by_bash langtag tsv reg)
is 'bash: the second file' 'registry.txt' < <(by_bash langtag upgrade old reg)
is 'bash: the table and the registry' 'registry.txt registry.txt registry.txt' < <({ by_bash langtag codes reg; by_bash langtag codes table reg; by_bash langtag tsv registry.txt 2 --codes reg; })
is 'bash: the installed registry' '@ @' < <({ by_bash langtag canon @; by_bash langtag codes table @; })
is 'bash: options of csv' '--delimiter' < <(by_bash langtag csv --d)
is 'bash: the file of json' 'json registry.txt' < <({ by_bash langtag js; by_bash langtag json reg; })
is 'bash: options of tsv' '--codes --heading --help --keep --summary' < <(by_bash langtag tsv registry.txt -)
is 'bash: show, its file and its options' '--help --json registry.txt show' < <({ by_bash langtag sh; by_bash langtag show reg; by_bash langtag show registry.txt -; })
is 'bash: options of match' '--accept --extended --help --lookup' < <(by_bash langtag match registry.txt -)
is 'bash: a file after options' 'registry.txt registry.txt registry.txt registry.txt' < <({ by_bash langtag canon --summary reg; by_bash langtag csv --delimiter tab reg; by_bash langtag codes --summary table reg; by_bash langtag match --accept de reg; })
is 'bash: a tag is not completed' '' < <(by_bash langtag classify reg)
if command -v fish > /dev/null; then
    is 'fish: a command' 'canon check classify codes csv' < <(by_fish 'langtag c')
    is 'fish: a file' 'registry.txt' < <(by_fish 'langtag tsv reg')
    is 'fish: a file after an option' 'registry.txt' < <(by_fish 'langtag canon --summary reg')
    is 'fish: the table' 'registry.txt' < <(by_fish 'langtag csv registry.txt 2 --codes reg')
    is 'fish: an option' '--delimiter' < <(by_fish 'langtag csv --d')
    is 'fish: options of rows' '--heading --keep' < <({ by_fish 'langtag tsv --hea'; by_fish 'langtag csv --k'; })
    is 'fish: show, its file and an option' '--json registry.txt show' < <({ by_fish 'langtag sh'; by_fish 'langtag show reg'; by_fish 'langtag show --j'; })
    is 'fish: help' 'upgrade' < <(by_fish 'langtag help up')
else
    echo 'fish is not here'
fi
if command -v zsh > /dev/null; then
    is 'zsh: a command' 'canon check classify codes csv' < <(by_zsh 'langtag c' | grep -ao 'canon \|check \|classify \|codes \|csv ' | tr -d ' ' | sort -u)
    is 'zsh: an option' '--summary' < <(by_zsh 'langtag tsv --s' | grep -ao -e '--summary' | sort -u)
    is 'zsh: an option of show' '--json' < <(by_zsh 'langtag show --j' | grep -ao -e '--json' | sort -u)
    is 'zsh: the table' 'registry.txt' < <(by_zsh 'langtag tsv r 2 --codes reg' | grep -ao 'registry.txt' | sort -u)
    is 'zsh: a file after an option' 'registry.txt' < <(by_zsh 'langtag canon --summary reg' | grep -ao 'registry.txt' | sort -u)
    is 'zsh: a file' 'registry.txt' < <(by_zsh 'langtag check reg' | grep -ao 'registry.txt' | sort -u)
else
    echo 'zsh is not here'
fi

echo "$passed passed, $failed failed"
[ "$failed" = 0 ]
