"""How `tools/package` packs the program: what may be packed, the pages, the files and the two archives."""
