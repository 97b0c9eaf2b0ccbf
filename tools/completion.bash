# Completion of words for the launcher and the tools, in bash. Put into ~/.bashrc:  . CHECKOUT/tools/completion.bash

# The words that begin as the last one does, or else files.
_farsite_words() {
  mapfile -t COMPREPLY < <(compgen -W "$1" -- "${COMP_WORDS[COMP_CWORD]}")
}

_farsite() {
  COMPREPLY=()
  [ "$COMP_CWORD" = 1 ] && _farsite_words 'replay journal gen node build state --help --version -h'
}

# The options of a tool as its own --help lists them; files, where no option is begun.
_farsite_tool() {
  COMPREPLY=()
  case ${COMP_WORDS[COMP_CWORD]} in
    -*) _farsite_words "$("${COMP_WORDS[0]}" --help 2>/dev/null | grep -o -- '--[a-z][a-z-]*' | sort -u)" ;;
    *) mapfile -t COMPREPLY < <(compgen -f -- "${COMP_WORDS[COMP_CWORD]}") ;;
  esac
}

complete -F _farsite farsite ./farsite
for _farsite_name in explain make shrink chart diff; do
  complete -o filenames -F _farsite_tool "tools/$_farsite_name" "./tools/$_farsite_name"
done
complete -o filenames -F _farsite_tool examples/cluster/run ./examples/cluster/run
unset _farsite_name
