"""What the scripts of this folder share: readers of xrepair's texts, names of netlists, jobs and charts."""
