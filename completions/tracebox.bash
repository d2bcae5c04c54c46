# Completion of tracebox for bash: source this file.
_tracebox() {
  local word=${COMP_WORDS[COMP_CWORD]}
  case ${COMP_WORDS[1]}:$COMP_CWORD in
    *:1) COMPREPLY=($(compgen -W 'serial threads explore explain draw live compare decode help -h --help -V --version' -- "$word")) ;;
    threads:*) COMPREPLY=($(compgen -W '--turns -h --help' -- "$word")) ;;
    explore:*) COMPREPLY=($(compgen -W '--states --free --end -h --help' -- "$word")) ;;
    serial:* | explain:* | draw:* | live:* | compare:* | decode:*) COMPREPLY=($(compgen -W '-h --help' -- "$word")) ;;
    help:2) COMPREPLY=($(compgen -W 'serial threads explore explain draw live compare decode help' -- "$word")) ;;
  esac
}
complete -F _tracebox tracebox
