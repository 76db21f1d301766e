"""What lays out the site: pages with their links, the reference of the client by subject, and the
gallery's pictures."""
