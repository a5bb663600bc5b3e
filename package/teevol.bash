# Completion of teevol for bash.
_teevol() {
  local word=${COMP_WORDS[COMP_CWORD]} command=${COMP_WORDS[1]-} image=${COMP_WORDS[2]-}
  COMPREPLY=()
  case $COMP_CWORD:$command in
    1:*) mapfile -t COMPREPLY < <(compgen -W 'info verify cat blocks help --help --version' -- "$word") ;;
    2:info | 2:verify | 2:cat | 2:blocks) mapfile -t COMPREPLY < <(compgen -W --help -- "$word"; compgen -f -X '*.@(ctr|key)' -- "$word") ;;
    3:cat) mapfile -t COMPREPLY < <(compgen -W "$(teevol info "$image" 2>/dev/null | sed -n 's/^region \([a-z0-9]*\): objects.*/\1/p')" -- "$word") ;;
    4:cat) mapfile -t COMPREPLY < <(compgen -W "$(teevol info "$image" 2>/dev/null | sed -n "/^region ${COMP_WORDS[3]}: objects/,/^[^ ]/s/^  \([0-9a-f]*\) kind.*/\1/p")" -- "$word") ;;
    5:cat | 3:info | 3:verify | 3:blocks) mapfile -t COMPREPLY < <(compgen -W --json -- "$word") ;;
  esac
}
shopt -s extglob
complete -o filenames -F _teevol teevol
