"""What tools/fit_conf is made of: files of Slurm's own, made into the profile of docs/SLURM_CONF.md."""
