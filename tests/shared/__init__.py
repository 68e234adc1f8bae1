"""What commands of several folders take: conversations, a second database, and commands drawn by chance."""
