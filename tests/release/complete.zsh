#!/usr/bin/env zsh
# Shows what zsh offers for a line, with the completions of a folder: `complete.zsh FOLDER 'mpiwait check --'`.
# It types the line and a tab into a shell of its own, in which each match that is added is noted.
zmodload zsh/zpty || exit 3
work=$(mktemp -d) || exit 4

cat >$work/.zshrc <<END
fpath=(${(q)1} \$fpath)
autoload -Uz compinit && compinit -D -u
compadd() {
    # With one of these it fills an array, and adds nothing.
    if [[ " \${@[1,(i)(-|--)]} " != *' '-(O|A|D)' '* ]]; then
        local -a matches
        builtin compadd -A matches "\$@"
        ((!\$#matches)) || print -rl -- \$matches >>$work/offered
    fi
    builtin compadd "\$@"
}
say-end() { print the end }
zle -N say-end
bindkey '^I' complete-word '^X' say-end
print ready
END
: >$work/offered
export ZDOTDIR=$work
zpty -b shell zsh -d -i
# Only now: the shell of its own would take the trap along.
trap 'rm -rf -- $work' EXIT
zpty -r -m shell said '*ready*' || exit 4
zpty -w -n shell "$2"$'\t\x18'
zpty -r -m shell said '*the end*' || exit 4
zpty -d shell
sort -u -- $work/offered
