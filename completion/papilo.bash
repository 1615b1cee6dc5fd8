# Completion for bash: source completion/papilo.bash, and `papilo` and `papilo-explain` complete commands, options and files.
_papilo() {
  local word=${COMP_WORDS[COMP_CWORD]} name=${COMP_WORDS[0]##*/} options=
  if [[ $name == papilo && $COMP_CWORD == 1 ]]; then
    mapfile -t COMPREPLY < <(compgen -W 'presolve postsolve check migrate verify solve gen help build --version' -- "$word")
    return
  fi
  case $name:${COMP_WORDS[1]} in
    papilo-explain:*) options='--limit --fractions --fixed --opb --all --column --row' ;;
    papilo:presolve) options='--threads --limit --dual --ray --fractions --ordered --fixed --opb' ;;
    papilo:postsolve) options='--wide' ;;
    papilo:check) options='--fixed --opb --wide' ;;
    papilo:verify) options='--fixed --opb' ;;
    papilo:solve) options='--pivots --fixed' ;;
    papilo:help) options="status $(printf 'M%d ' {1..19})$(printf 'O%d ' {1..5})$(printf 'F%d ' {1..9})$(printf 'S%d ' {1..6})" ;;
  esac
  if [[ $word == -* || ${COMP_WORDS[1]} == help ]]; then
    mapfile -t COMPREPLY < <(compgen -W "$options" -- "$word")
  else
    mapfile -t COMPREPLY < <(compgen -f -- "$word")
  fi
}
complete -o filenames -F _papilo papilo papilo-explain ./papilo ./papilo-explain
