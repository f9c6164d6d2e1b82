"""What several parts use: the client of the server, languages, forms, pages behind nginx."""
