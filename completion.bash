# Completion of ./sumcheck in bash: `source completion.bash`.
_sumcheck() {
  local word=${COMP_WORDS[COMP_CWORD]} at=$COMP_CWORD words=("${COMP_WORDS[@]}")
  if [ "$at" -gt 1 ] && [ "${words[1]}" = --json ]; then words=("${words[0]}" "${words[@]:2}") at=$((at - 1)); fi
  case $at:${words[1]} in
    1:*)
      if [ "$at" -lt "$COMP_CWORD" ]; then mapfile -t COMPREPLY < <(compgen -W 'audit product veil explain matmul circuit openings make' -- "$word")
      else mapfile -t COMPREPLY < <(compgen -W 'audit product veil explain matmul circuit openings make --try --why --fill --json --version --help' -- "$word"); fi
      ;;
    2:audit | 2:product | 2:veil | 2:explain | 2:matmul | 2:circuit | 2:openings | 2:--why | 2:--fill) mapfile -t COMPREPLY < <(compgen -f -X '!*.json' -- "$word"; compgen -d -S / -- "$word") ;;
    4:make) mapfile -t COMPREPLY < <(compgen -W 'plain represented small-value' -- "$word") ;;
  esac
}
complete -F _sumcheck ./sumcheck sumcheck
