# Completions of pc and pc_desk for bash: source this file.
_pc() {
  local word=${COMP_WORDS[COMP_CWORD]} command=${COMP_WORDS[1]} previous=${COMP_WORDS[COMP_CWORD - 1]}
  COMPREPLY=()
  if [ "$COMP_CWORD" -eq 1 ]; then
    mapfile -t COMPREPLY < <(compgen -W "bound prove check show conflict quantile session gen" -- "$word")
  elif [ "$previous" = --nodes ]; then
    mapfile -t COMPREPLY < <(compgen -W "1 1000 10000 100000" -- "$word")
  elif [[ $word == -* && $command =~ ^(bound|prove|conflict|quantile|session)$ ]]; then
    mapfile -t COMPREPLY < <(compgen -W "--nodes" -- "$word")
  elif [ "$command" != gen ]; then
    compopt -o filenames
    mapfile -t COMPREPLY < <(compgen -f -- "$word")
  fi
}
_pc_desk() {
  local word=${COMP_WORDS[COMP_CWORD]} verb=${COMP_WORDS[1]} previous=${COMP_WORDS[COMP_CWORD - 1]}
  COMPREPLY=()
  if [ "$COMP_CWORD" -eq 1 ]; then
    mapfile -t COMPREPLY < <(compgen -W "ask session why weigh try opens history limit schema sql help --help --version" -- "$word")
  elif [ "$verb" = help ]; then
    mapfile -t COMPREPLY < <(compgen -W "ask session why weigh try opens history limit schema sql" -- "$word")
  elif [[ $previous == --as && $verb =~ ^(why|weigh)$ ]]; then
    mapfile -t COMPREPLY < <(compgen -W "text table json svg" -- "$word")
  elif [[ $previous == --as && $verb =~ ^(try|opens)$ ]]; then
    mapfile -t COMPREPLY < <(compgen -W "text table json" -- "$word")
  elif [ "$previous" = --as ]; then
    mapfile -t COMPREPLY < <(compgen -W "text table json chart svg" -- "$word")
  elif [ "$previous" = --nodes ]; then
    mapfile -t COMPREPLY < <(compgen -W "1 1000 10000 100000" -- "$word")
  elif [ "$previous" = --scale ]; then
    mapfile -t COMPREPLY < <(compgen -W "0.01 0.05 0.1 1" -- "$word")
  elif [[ $previous =~ ^--(by|per)$ && $verb == history ]]; then
    # the columns of the schema that stands there, where their names are plain
    local file=
    for file in "${COMP_WORDS[@]:2}"; do
      [[ $file != -* && -r $file ]] || continue
      mapfile -t COMPREPLY < <(compgen -W "$(sed -n 's/^\([A-Za-z_][A-Za-z_0-9]*\),\(cat\|int\|dec\),.*/\1/p' "$file")" -- "$word")
      break
    done
  elif [[ $previous == --by && $verb == weigh ]]; then
    # the plain names of constraints in the files that stand there
    local file=
    for file in "${COMP_WORDS[@]:2}"; do
      [[ $file != -* && -r $file ]] || continue
      mapfile -t -O "${#COMPREPLY[@]}" COMPREPLY < <(compgen -W "$(sed -n 's/^\([A-Za-z_][A-Za-z_0-9]*\):.*=>.*/\1/p' "$file")" -- "$word")
    done
  elif [[ $word == -* && $verb == weigh ]]; then
    mapfile -t COMPREPLY < <(compgen -W "--as --nodes --by --sort --help" -- "$word")
  elif [[ $word == -* && $verb == history ]]; then
    mapfile -t COMPREPLY < <(compgen -W "--by --where --per --widen --lost --help" -- "$word")
  elif [[ $word == -* && $verb == try ]]; then
    mapfile -t COMPREPLY < <(compgen -W "--as --scale --help" -- "$word")
  elif [[ $word == -* && $verb == opens ]]; then
    mapfile -t COMPREPLY < <(compgen -W "--as --help" -- "$word")
  elif [[ $word == -* && $verb =~ ^(limit|schema|sql)$ ]]; then
    mapfile -t COMPREPLY < <(compgen -W "--help" -- "$word")
  elif [[ $verb == schema && $COMP_CWORD -gt 2 && -r ${COMP_WORDS[2]} ]]; then
    # the names of the header, where they are plain
    local header
    IFS= read -r header < "${COMP_WORDS[2]}"
    mapfile -t COMPREPLY < <(IFS=,; compgen -W "${header%$'\r'}" -- "$word")
  elif [[ $word == -* ]]; then
    mapfile -t COMPREPLY < <(compgen -W "--as --nodes --help" -- "$word")
  else
    compopt -o filenames
    mapfile -t COMPREPLY < <(compgen -f -- "$word")
  fi
}
complete -F _pc pc ./pc
complete -F _pc_desk pc_desk ./pc_desk
