"""The page for planners, which `pfs-web` serves."""
