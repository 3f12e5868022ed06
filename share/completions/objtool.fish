# Completion of the words of objtool, for fish: commands, the options of each that don't stand yet, and names of files.
complete -c objtool -f

complete -c objtool -n 'test (count (commandline -opc)) -eq 1' -s h -l help -d 'Print help'
complete -c objtool -n 'test (count (commandline -opc)) -eq 1' -s V -l version -d 'Print version'
complete -c objtool -n 'test (count (commandline -opc)) -eq 1' -a check -d 'Check an object, and write it with its ORC tables added'
complete -c objtool -n 'test (count (commandline -opc)) -eq 1' -a dump -d 'Print the rows of the ORC tables of an object'
complete -c objtool -n 'test (count (commandline -opc)) -eq 1' -a unwind -d 'Print the frames of a stack, by the ORC tables of an object'
complete -c objtool -n 'test (count (commandline -opc)) -eq 1' -a sites -d 'Write an object with lists of its returns, calls through thunks and calls'
complete -c objtool -n 'test (count (commandline -opc)) -eq 1' -a list -d 'Print the site lists of an object'
complete -c objtool -n 'test (count (commandline -opc)) -eq 1' -a entry -d 'Check code against the entry rules'
complete -c objtool -n 'test (count (commandline -opc)) -eq 1' -a cfi -d 'Check an object and write it with call frame information'
complete -c objtool -n 'test (count (commandline -opc)) -eq 1' -a cfa -d 'Print the call frame information of an object'
complete -c objtool -n 'test (count (commandline -opc)) -eq 1' -a merge -d 'Merge the rows of the ORC tables of several objects into one table'
complete -c objtool -n 'test (count (commandline -opc)) -eq 1' -a find -d 'Print the row of a merged table that holds at an address'
complete -c objtool -n 'test (count (commandline -opc)) -eq 1' -a show -d 'Print the program of an object as the checker sees it'
complete -c objtool -n 'test (count (commandline -opc)) -eq 1' -a explain -d 'Print what a rule or a refusal means'
complete -c objtool -n 'test (count (commandline -opc)) -eq 1' -a demo -d 'Make an object of N functions, check it, and print what it has'

complete -c objtool -n 'contains -- (commandline -opc)[2] check; and not __fish_contains_opt fp' -l fp -d 'Check that each call is made with a frame pointer set up'
complete -c objtool -n 'contains -- (commandline -opc)[2] check; and not __fish_contains_opt retpoline' -l retpoline -d 'Check that no indirect branch is left outside listed places'
complete -c objtool -n 'contains -- (commandline -opc)[2] check; and not __fish_contains_opt rethunk' -l rethunk -d 'Check that no return instruction is left outside listed places'
complete -c objtool -n 'contains -- (commandline -opc)[2] check; and not __fish_contains_opt uaccess' -l uaccess -d 'Check that user access is off outside of listed functions'
complete -c objtool -n 'contains -- (commandline -opc)[2] check; and not __fish_contains_opt no-unreachable' -l no-unreachable -d 'Do not check that each instruction is reached'
complete -c objtool -n 'contains -- (commandline -opc)[2] check; and not __fish_contains_opt link' -l link -d 'Let code that a linker left without a symbol stand unreached'
complete -c objtool -n 'contains -- (commandline -opc)[2] check sites; and not __fish_contains_opt module' -l module -d 'Take the object for part of a module, so that .init.text counts too'
complete -c objtool -n 'contains -- (commandline -opc)[2] check; and not __fish_contains_opt backtrace' -l backtrace -d 'Print where each warning is and how control came there'
complete -c objtool -n 'contains -- (commandline -opc)[2] entry; and not __fish_contains_opt noinstr' -l noinstr -d 'Check that code that is not instrumented calls no code that is'
complete -c objtool -n 'contains -- (commandline -opc)[2] entry; and not __fish_contains_opt sls' -l sls -d 'Check that an INT3 stands behind each return and each indirect jump'
complete -c objtool -n 'contains -- (commandline -opc)[2] entry; and not __fish_contains_opt ibt' -l ibt -d 'Check that functions whose address is taken begin with ENDBR'
complete -c objtool -n 'contains -- (commandline -opc)[2] check sites entry cfi show; and not __fish_contains_opt all-opcodes' -l all-opcodes -d 'Read vector, virtualization and newer system instructions too'
# (the name of the file stands right behind --names=, that of the function behind --function=)
complete -c objtool -n 'contains -- (commandline -opc)[2] show; and not string match -q -- "--function=*" (commandline -opc)' -a --function= -d 'Print the code of this function alone'
complete -c objtool -n 'contains -- (commandline -opc)[2] check sites entry cfi show; and not string match -q -- "--names=*" (commandline -opc)' -a --names= -d 'Add the function names of a file'

complete -c objtool -n 'contains -- (commandline -opc)[2] check dump unwind sites list entry cfi cfa merge find show' -F
