# Completion of teectl for bash.
_teectl() {
  local word=${COMP_WORDS[COMP_CWORD]} words=("${COMP_WORDS[@]:1:COMP_CWORD-1}")
  COMPREPLY=()
  if [ "${words[0]-}" = --explain ]; then
    words=("${words[@]:1}")
  fi
  case ${#words[@]}:${words[0]-} in
    0:) mapfile -t COMPREPLY < <(compgen -W 'run race gen --check --hosts --help --version --explain' -- "$word") ;;
    1:run) mapfile -t COMPREPLY < <(compgen -f -X '*.@(ctr|key)' -- "$word") ;;
  esac
}
shopt -s extglob
complete -o filenames -F _teectl teectl
