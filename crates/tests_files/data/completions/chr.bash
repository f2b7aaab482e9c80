# Completion of chr for bash: source this file, or put it as `chr` into a folder that bash-completion reads.
_chr() {
  local word=${COMP_WORDS[COMP_CWORD]} before=${COMP_WORDS[COMP_CWORD-1]}
  COMPREPLY=()
  if [ "$COMP_CWORD" -eq 1 ]; then
    COMPREPLY=($(compgen -W "run check explain picture session serve help --help --version" -- "$word"))
    return
  fi
  case $before in
    --show)
      COMPREPLY=($(compgen -W "all store log strict" -- "$word"))
      return
      ;;
    --as)
      COMPREPLY=($(compgen -W "text dot" -- "$word"))
      return
      ;;
    --posts | --log | --store | --socket)
      compopt -o filenames 2>/dev/null
      COMPREPLY=($(compgen -f -- "$word"))
      return
      ;;
    --steps | --labels | --from | --to | --workers | --sessions) return ;;
  esac
  case ${COMP_WORDS[1]}:$word in
    run:-*) COMPREPLY=($(compgen -W "--posts --steps --labels --show --log --store --help" -- "$word")) ;;
    check:-*) COMPREPLY=($(compgen -W "--log --help" -- "$word")) ;;
    explain:-*) COMPREPLY=($(compgen -W "--gone --as --help" -- "$word")) ;;
    picture:-*) COMPREPLY=($(compgen -W "--from --to --help" -- "$word")) ;;
    session:*) COMPREPLY=($(compgen -W "--labels --help" -- "$word")) ;;
    serve:*) COMPREPLY=($(compgen -W "--socket --workers --sessions --help" -- "$word")) ;;
    run:* | check:* | explain:* | picture:*) compopt -o filenames 2>/dev/null; COMPREPLY=($(compgen -f -- "$word")) ;;
    help:*) COMPREPLY=($(compgen -W "run check explain picture session serve" -- "$word")) ;;
  esac
}
complete -F _chr chr
