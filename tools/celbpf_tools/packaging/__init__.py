"""A package of the built programs, `vapctl`, and their pages.

    manual           man pages, of the repository's pages
    commands_manual  a man page of a program with subcommands, of its parser
    completion       completion for bash and zsh
    pages            the pages of the repository as they are installed
    tree             the files of a package
    archives         a Debian package, and a tar archive
    checking         what is checked of a package once it is installed
    rooted           a package in the root of a Debian system
"""
