"""The parts of programs/lockd_report. A trace is read (`trace`, `times`), what happens to locks is followed (`session`, over `locks`, `files` and `circle`), laid
out as lanes (`chart`) and as `tables`, and written as a page (`page`, with `page.html`, `page.css` and the scripts)."""
