#!/usr/bin/env zsh
# Prints what zsh offers behind each line of standard input, as a shell that is typed into does: the line, and then each
# word that is offered, on lines of their own; and an empty line.
#
# usage: zsh -f tests/tools/complete.zsh FOLDER < LINES
#
# FOLDER has the function _spmlink. Names of files are those of the folder where this is called.
zmodload zsh/zpty || exit 2

# What is done first in the shell that is typed into: TAB then prints the words that are offered, between two marks.
setup='
PS1= PS2= RPS1=
unset zle_bracketed_paste
unsetopt auto_list auto_menu
fpath=('${(q)1}' $fpath)
autoload -Uz compinit && compinit -u -D
bindkey "^I" complete-word "^U" kill-whole-line
begin-mark() { print -r -- "<offered>" }
end-mark() { print -r -- "</offered>" }
compadd() {
    local -a offered
    if [[ ${@[1,(i)(-|--)]} != *-(O|A|D)\ * ]]; then
        builtin compadd -A offered "$@"
        (( $#offered )) && print -rl -- "offered:"${(Q)^offered}
    fi
    builtin compadd "$@"
}
print ready
'

zpty shell zsh -f -i
zpty -w shell "$setup"
zpty -r -m shell text '*ready'$'\r\n''*' || exit 2
while IFS= read -r line; do
    # the marks are made anew for each line, since zsh calls such functions once
    zpty -w shell $'\x15''compprefuncs=(begin-mark) comppostfuncs=(end-mark)'
    zpty -w -n shell "$line"$'\t'
    zpty -r -m shell text '*<offered>*</offered>*' || exit 2
    print -r -- "$line"
    print -r -- "${text//$'\r'/}" | sed -n 's/^offered://p' | sort -u
    print
done
zpty -d shell
