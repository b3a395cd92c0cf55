# Completions of cstn for bash: `. completions/cstn.bash`. Made by tools/manual of tools/commands.txt.
_cstn() {
  local word=${COMP_WORDS[COMP_CWORD]} options=
  COMPREPLY=()
  if [ "$COMP_CWORD" -eq 1 ]; then
    mapfile -t COMPREPLY < <(compgen -W "check run edit follow closed closedcheck tree treecheck cases tight conflict save plan sentences replay drill host --version explain draw board" -- "$word")
    return
  fi
  case ${COMP_WORDS[COMP_CWORD - 1]} in --deadline | --cap | --tick | --port) return ;; esac
  case ${COMP_WORDS[1]} in
    check | run | edit | follow | closed | tree | cases | tight | conflict | host) options="--deadline --cap" ;;
    closedcheck | treecheck | save | plan | sentences | replay) options="--deadline" ;;
    explain) options="--conflict --deadline --float --follow --json --longest --only --start --step --tasks --tick --tight --tree" ;;
    draw) options="--case --csv --deadline --html --start --tasks --tick cases network now" ;;
    board) options="--address --by-hand --deadline --journals --name --port --start --tick" ;;
  esac
  mapfile -t COMPREPLY < <(compgen -W "$options" -- "$word"; [ "${word#-}" != "$word" ] || compgen -f -- "$word")
}
complete -o filenames -F _cstn cstn ./cstn
