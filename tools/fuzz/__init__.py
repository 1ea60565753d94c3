"""Looks for what is wrong by trying: random scripts, damaged ones and such at the limits, threads, too little memory, retrievals made to
hurt, and the same calls on PostgreSQL."""
