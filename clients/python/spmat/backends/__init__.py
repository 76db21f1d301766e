"""What matrices stand on: something that takes jobs, holds the results, and reads them. `protocol`
says what each of these can do."""
