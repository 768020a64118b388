# Completion of kdb for bash: commands, the words of formats and strategies, and the names that `kdb ls` prints.
_kdb() {
  local word=${COMP_WORDS[COMP_CWORD]} command=${COMP_WORDS[1]-} IFS=$'\n'
  local commands="get set rm ls cp mv meta-get meta-set meta-ls mount umount mounts file export import validate merge"
  commands="$commands batch gen"
  # A colon parts words for bash, but not for kdb: the word goes on from the last blank.
  local line=${COMP_LINE:0:COMP_POINT}
  local whole=${line##* } place
  set -f
  IFS=$' ' read -ra place <<<"$line"
  set +f
  local count=${#place[@]}
  [[ $line == *' ' ]] && count=$((count + 1))
  if [ "$count" -le 2 ]; then
    COMPREPLY=($(compgen -W "${commands// /$'\n'}" -- "$word"))
    return
  fi
  # The option of `mount` is none of its places.
  local at=$count
  [[ ${place[2]-} == -k ]] && at=$((count - 1))
  case $command:$at in
    mount:3) COMPREPLY=($(cd .kdb 2>/dev/null && compgen -f -- "$whole")); return ;;
    mount:5 | export:4 | import:4) COMPREPLY=($(compgen -W $'dump\nsimpleini\nhosts\njson' -- "$whole")); return ;;
    mounts:* | batch:* | gen:*) return ;;
  esac
  case ${place[count - 2]} in
    -s) COMPREPLY=($(compgen -W $'abort\nour\ntheir' -- "$whole")); return ;;
  esac
  # Names: of all keys, and the namespaces. What bash parted at a colon is taken off again.
  local found
  found=$(kdb ls / 2>/dev/null; printf '%s\n' spec:/ dir:/ user:/ system:/)
  COMPREPLY=($(compgen -W "$found" -- "$whole"))
  if [[ $whole == *:* && ${COMP_WORDBREAKS-} == *:* ]]; then
    local front=${whole%"${whole##*:}"}
    for at in "${!COMPREPLY[@]}"; do COMPREPLY[at]=${COMPREPLY[at]#"$front"}; done
  fi
}
complete -o default -F _kdb kdb
