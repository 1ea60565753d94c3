"""What judges and fixed paths read, over the slow model: judge_reads.py counts it on skewed queries, guarded_judge.py is the guard around a
judge, fixed_paths.py has a planner's paths, and named_judges.py puts a judge into a run."""
