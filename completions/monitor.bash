# bash completion of monitor, made by completions/make.py from the program's help
# shellcheck disable=SC2207

# the last condition of a list, after what stands before it: other conditions, or the name of a predicate
_monitor_conditions() {
  local before=''
  case "$1" in *[,:]*) before="${1%"${1##*[,:]}"}" ;; esac
  COMPREPLY=($(compgen -P "$before" -W 'possibly possibly-no definitely definitely-no unknown' -- "${1#"$before"}"))
  # where bash cuts words at a colon, what stands before the last one is there already
  case "$COMP_WORDBREAKS" in
    *:*) COMPREPLY=("${COMPREPLY[@]#"${before%"${before##*:}"}"}") ;;
  esac
}

_monitor() {
  local line="${COMP_LINE:0:COMP_POINT}" all words=() word current previous command options skip=''
  read -ra all <<< "$line"
  case "$line" in *[[:space:]]) all+=('') ;; esac
  # --explain, and --max-time with its value, may stand anywhere, before a command too
  for word in "${all[@]:0:${#all[@]}-1}"; do
    if [ -n "$skip" ]; then
      skip=''
    else
      case "$word" in --explain | --max-time=*) ;; --max-time) skip=1 ;; *) words+=("$word") ;; esac
    fi
  done
  words+=("${all[-1]}")
  current="${words[-1]}" previous='' command="${words[1]:-}"
  [ "${#words[@]}" -gt 1 ] && previous="${words[-2]}"
  case "$current" in --*=*) previous="${current%%=*}" current="${current#*=}" ;; esac
  COMPREPLY=()
  [ -n "$skip" ] && return
  if [ "${#words[@]}" -le 2 ]; then
    COMPREPLY=($(compgen -W 'judge check draw serve explore test infer reduce batch bundle merge help --explain --max-time -h --help -V --version' -- "$current"))
    return
  fi
  case "$previous" in
    --max-time)
      return ;;
    --width)
      return ;;
    --ask)
      return ;;
    --workers)
      COMPREPLY=($(compgen -W '1 2 3 4 5 6 7 8 9 10 11 12 13 14 15 16' -- "$current"))
      return ;;
    --fail-on)
      _monitor_conditions "$current"
      return ;;
    --format)
      COMPREPLY=($(compgen -W 'text json' -- "$current"))
      return ;;
    --notes)
      return ;;
    --predicate)
      return ;;
    --evidence)
      COMPREPLY=($(compgen -W 'possibly definitely' -- "$current"))
      return ;;
    --from)
      return ;;
    --port)
      return ;;
    --bind)
      return ;;
    --socket)
      return ;;
    --port-file)
      return ;;
    --watchers)
      return ;;
    --wait)
      return ;;
    --token)
      return ;;
    --token-file)
      return ;;
    --idle)
      return ;;
    --keep)
      return ;;
    --never)
      return ;;
    --always)
      return ;;
    --sometimes)
      return ;;
    --link)
      return ;;
    --jobs)
      COMPREPLY=($(compgen -W '1 2 3 4 5 6 7 8 9 10 11 12 13 14 15 16' -- "$current"))
      return ;;
    --pages)
      return ;;
    --json)
      return ;;
    --junit)
      return ;;
    --to)
      return ;;
  esac
  case "$command" in
    judge) options='--explain --max-time --width --ask --workers --beyond-width --fail-on --format --notes -h --help' ;;
    check) options='--explain --max-time --width --ask --notes --format -h --help' ;;
    draw) options='--explain --max-time --width --ask --beyond-width --predicate --evidence --from --all --notes -h --help' ;;
    serve) options='--explain --max-time --width --ask --port --bind --socket --port-file --watchers --wait --join-first --token --token-file --idle --keep --workers --beyond-width --fail-on --format -h --help' ;;
    explore) options='--explain --max-time --width --ask --workers --beyond-width --fail-on --never --always --sometimes --notes --link -h --help' ;;
    test) options='--explain --max-time --width --ask --workers --never --always --sometimes --jobs --pages --format --json --junit -h --help' ;;
    infer) options='--explain --max-time -h --help' ;;
    reduce) options='--explain --max-time --width --ask --to -h --help' ;;
    batch) options='--explain --max-time --width --ask --workers --beyond-width --fail-on --jobs --bundles -h --help' ;;
    bundle) options='--explain --max-time -h --help' ;;
    merge) options='--explain --max-time -h --help' ;;
    help)
      COMPREPLY=($(compgen -W 'judge check draw serve explore test infer reduce batch bundle merge help' -- "$current"))
      return ;;
    *) return ;;
  esac
  case "$current" in
    -*) COMPREPLY=($(compgen -W "$options" -- "$current")) ;;
    *) compopt -o default 2> /dev/null ;;
  esac
}

complete -F _monitor monitor
