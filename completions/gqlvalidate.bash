# Completion of gqlvalidate for bash: source this file, or put it into the folder of bash-completion.
_gqlvalidate() {
  local word=${COMP_WORDS[COMP_CWORD]} before=${COMP_WORDS[COMP_CWORD - 1]} command=${COMP_WORDS[1]}
  local reporting="--format --color --max-reports --help"
  local limits="--max-depth --max-reach --max-work"
  COMPREPLY=()
  if [ "$COMP_CWORD" -eq 1 ]; then
    mapfile -t COMPREPLY < <(compgen -W "check diff print-schema schema serve syntax explain help --help --version" -- "$word")
    return
  fi
  case "$before" in
    --format)
      local formats="text json github sarif junit checkstyle gitlab"
      [ "$command" = diff ] && formats="text json github markdown"
      mapfile -t COMPREPLY < <(compgen -W "$formats" -- "$word")
      return ;;
    --fail-on) mapfile -t COMPREPLY < <(compgen -W "breaking dangerous never" -- "$word"); return ;;
    --rule)
      mapfile -t COMPREPLY < <(compgen -W "$(gqlvalidate explain 2> /dev/null | cut -d' ' -f1 | sed 's/.*/&=warning &=error/')" -- "$word")
      return ;;
    --color) mapfile -t COMPREPLY < <(compgen -W "auto always never" -- "$word"); return ;;
    --federation) mapfile -t COMPREPLY < <(compgen -W "2" -- "$word"); return ;;
    --client) mapfile -t COMPREPLY < <(compgen -W "apollo relay urql" -- "$word"); return ;;
    --max-*) return ;;
  esac
  local options="--help"
  case "$command" in
    check) options="--schema --config --no-config --project --fragments --only --each --one-document --files-from --null --stdin-name --watch --rule --deprecated --max-warnings --federation --client $reporting $limits" ;;
    diff) options="--old-schema --new-schema --operations --lone-fields --fail-on --federation --format --help" ;;
    schema) options="--federation $reporting" ;;
    syntax) options="$reporting" ;;
    serve) options="--schema --fragments --federation --max-line --max-reports --help $limits" ;;
    explain) options=$(gqlvalidate explain 2> /dev/null | cut -d' ' -f1) ;;
    help) options="check diff print-schema schema serve syntax explain" ;;
  esac
  case "$command:$word" in
    explain:* | help:* | *:-*) mapfile -t COMPREPLY < <(compgen -W "$options" -- "$word") ;;
    *) mapfile -t COMPREPLY < <(compgen -f -- "$word") ;;
  esac
}
complete -o filenames -F _gqlvalidate gqlvalidate
