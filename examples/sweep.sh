#!/bin/sh
#SBATCH --array=1-3%2 --ntasks=2 --time=10
#SIM run=240 exit=0
srun ./sweep
