# The proved leaves build into a static library.
exec tools/staticlib.sh leaf_exports
