# Completion of the jobs, options, models and kinds of poosl for bash: source it, or have 'poosl install' put
# it where bash finds it.
# shellcheck shell=bash

_poosl_options() { # job
  case $1 in
    run) echo --first --seed --choices --steps --until --units --summary ;;
    chart) echo --first --seed --choices --steps --until --units --svg ;;
    menu | ring | watch | drive) echo --first --seed --choices --steps --until --units ;;
    replay) echo --units ;;
  esac
}

# Those of the job's options that may still come: each once, and one choice.
_poosl_left() { # job, words before
  local it had=" ${*:2} "
  for it in $(_poosl_options "$1"); do
    case $had in
      *" $it "*) continue ;;
      *' --first '* | *' --seed '* | *' --choices '*)
        case $it in --first | --seed | --choices) continue ;; esac
        ;;
    esac
    echo "$it"
  done
}

_poosl_kinds() {
  "$1" explain 2>/dev/null | sed 's/^status //; s/ .*//'
}

_poosl() {
  local jobs='run menu replay check make ring watch drive format' own='chart debug explain now install help version'
  local word=${COMP_WORDS[COMP_CWORD]} at=1 job files=0
  COMPREPLY=()
  # (behind 'now' stands a job of the program, or a chart)
  [[ ${COMP_WORDS[1]-} != now || $COMP_CWORD -lt 2 ]] || at=2 own=chart
  if ((COMP_CWORD == at)); then
    mapfile -t COMPREPLY < <(compgen -W "$jobs $own" -- "$word")
    return
  fi
  job=${COMP_WORDS[at]}
  case $job in
    run | menu | check | format | chart) files=1 ;;
    replay | watch | drive | debug) files=2 ;;
    install) mapfile -t COMPREPLY < <(compgen -d -- "$word"); compopt -o filenames 2>/dev/null; return ;;
    help) mapfile -t COMPREPLY < <(compgen -W "$jobs $own" -- "$word"); return ;;
    explain) mapfile -t COMPREPLY < <(compgen -W "$(_poosl_kinds "${COMP_WORDS[0]/#\~/$HOME}")" -- "$word"); return ;;
  esac
  if ((COMP_CWORD - at <= files)); then
    compopt -o filenames 2>/dev/null
    # (a trace may have any name, and so may watches and a script)
    if [[ $job == chart ]] || ((COMP_CWORD - at == 2)); then
      mapfile -t COMPREPLY < <(compgen -f -- "$word")
    else
      mapfile -t COMPREPLY < <(compgen -f -X '!*.poosl' -- "$word"; compgen -d -- "$word")
    fi
    return
  fi
  case ${COMP_WORDS[COMP_CWORD - 1]} in
    --seed | --choices | --steps | --until | --units) return ;;
  esac
  mapfile -t COMPREPLY < <(compgen -W "$(_poosl_left "$job" "${COMP_WORDS[@]:0:COMP_CWORD}")" -- "$word")
}

complete -F _poosl poosl
