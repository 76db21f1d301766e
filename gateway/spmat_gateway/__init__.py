"""spmat-gateway: sessions of spmat for untrusted users, with users, quotas, a ledger, and a process
for each session."""
