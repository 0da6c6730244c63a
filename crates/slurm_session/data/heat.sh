#!/bin/sh
#SBATCH --ntasks=2 --time=10
#SIM run=300 exit=0
./heat
