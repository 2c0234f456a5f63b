"""What the commands of bin/ share: machines and scripts, installations and their pages, volumes, assembler, measurements."""
